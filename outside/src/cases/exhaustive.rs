//! All requirements to four rows over two conditions on all runs to three steps, and all of five rows on some runs.

use super::make::{trap, truth, witness, BINARY, UNARY};
use super::Part;
use crate::batch::Batch;
use crate::random::Random;
use crate::reference::formula::*;
use crate::reference::trap;

const CONDITIONS: usize = 2;
const STEPS: usize = 3;
const LEAVES: [Row; 4] = [[FALSE, 0, 0], [TRUE, 0, 0], [CONDITION, 0, 0], [CONDITION, 1, 0]];

pub fn make(batch: &mut Batch, random: &mut Random, part: &Part) {
    let runs = all_runs(STEPS, CONDITIONS);
    let rows_on_all_runs = part.pick(3, 4);
    for rows in 1..=part.pick(4, 5) {
        let mut requirements = Vec::new();
        grow(&mut Vec::new(), 0, rows, &mut requirements);
        for (number, requirement) in requirements.iter().enumerate() {
            if !part.has(number) {
                continue;
            }
            every_trap(batch, requirement);
            if rows <= rows_on_all_runs {
                runs.iter().for_each(|run| on_run(batch, requirement, run));
            } else {
                (0..part.pick(1, 4)).for_each(|_| on_run(batch, requirement, &runs[random.below(runs.len())]));
            }
        }
    }
}

/// All runs to so many steps.
pub fn all_runs(steps: usize, conditions: usize) -> Vec<Vec<u32>> {
    let mut runs: Vec<Vec<u32>> = Vec::new();
    let mut longest: Vec<Vec<u32>> = vec![vec![]];
    for _ in 0..steps {
        let add = |run: &Vec<u32>| (0..1u32 << conditions).map(|word| [run.as_slice(), &[word]].concat()).collect::<Vec<_>>();
        longest = longest.iter().flat_map(add).collect();
        runs.extend(longest.iter().cloned());
    }
    runs
}

/// All requirements of so many rows that start with these; the open rows, as bits, are not yet named.
fn grow(rows: &mut Vec<Row>, open: u32, most: usize, found: &mut Vec<Vec<Row>>) {
    if rows.len() == most {
        if open.count_ones() == 1 {
            found.push(rows.clone());
        }
        return;
    }
    let this = 1 << rows.len();
    let mut next = |row: Row, open: u32| {
        rows.push(row);
        grow(rows, open | this, most, found);
        rows.pop();
    };
    for row in LEAVES {
        next(row, open);
    }
    for row in rows_over(open) {
        let named = if fields(row[0]) == Some(Fields::TwoRows) { 1 << row[1] | 1 << row[2] } else { 1 << row[1] };
        next(row, open & !named);
    }
}

/// The rows that name open rows; "not" over what is no condition is left to check 9.
fn rows_over(open: u32) -> Vec<Row> {
    let names: Vec<u8> = (0..32).filter(|row| open >> row & 1 == 1).collect();
    let mut rows = Vec::new();
    for &first in &names {
        rows.extend(UNARY.map(|kind| [kind, first, 0]));
        rows.push([NOT, first, 0]);
        for &second in names.iter().filter(|&&second| second != first) {
            rows.extend(BINARY.map(|kind| [kind, first, second]));
        }
    }
    rows
}

fn every_trap(batch: &mut Batch, requirement: &[Row]) {
    let bytes = bytes_of(requirement);
    for (occurrence, row) in occurrences(requirement).into_iter().enumerate() {
        let length = bytes_of(&trap::table(requirement, row)).len();
        batch.add(trap(&bytes, CONDITIONS, occurrence, length + occurrence));
    }
}

/// Truth, every witness, and the truth of every trap table.
fn on_run(batch: &mut Batch, requirement: &[Row], run: &[u32]) {
    let bytes = bytes_of(requirement);
    batch.add(truth(&bytes, run, CONDITIONS));
    if row_of_no_requirement(requirement).is_some() {
        return;
    }
    for (occurrence, row) in occurrences(requirement).into_iter().enumerate() {
        batch.add(witness(&bytes, run, CONDITIONS, occurrence, run.len() + occurrence));
        batch.add(truth(&bytes_of(&trap::table(requirement, row)), run, CONDITIONS));
    }
}
