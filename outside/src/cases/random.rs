//! Random tables, requirements and suites, up to the limits.

use super::make::*;
use super::Part;
use crate::batch::Batch;
use crate::case::{LIST, PAGE, SHEET};
use crate::random::Random;
use crate::reference::formula::{bytes_of, occurrences};
use crate::reference::limits::*;
use crate::reference::suite::{self as file, Suite};
use crate::reference::trap;
use crate::reference::truth::holds;
use crate::selfcheck::{check, Check};

/// Mostly few, seldom up to the most.
fn amount(random: &mut Random, few: usize, most: usize) -> usize {
    match random.below(100) {
        0 => random.between(1, most),
        1..=4 => random.between(1, most.min(20 * few)),
        5..=20 => random.between(1, most.min(4 * few)),
        _ => random.between(1, few),
    }
}

fn conditions(random: &mut Random) -> usize {
    let most = random.pick(&[2, 3, 5, CONDITIONS_MOST]);
    random.between(1, most)
}

pub fn tables(batch: &mut Batch, random: &mut Random, part: &Part) {
    for _ in 0..part.pick(1_500, 2_500) {
        let conditions = conditions(random);
        let rows = amount(random, 12, TABLE_ROWS_MOST);
        let steps = amount(random, 8, STEPS_MOST);
        let mut rows = table(random, rows, conditions);
        if random.once_in(20) {
            let row = random.below(rows.len());
            rows[row][random.below(ROW_BYTES)] = random.byte();
        }
        let mut run = run(random, steps, conditions);
        if random.once_in(20) {
            run[random.below(steps)] ^= 1 << random.below(32);
        }
        batch.add(truth(&bytes_of(&rows), &run, conditions));
    }
}

pub fn requirements(batch: &mut Batch, random: &mut Random, part: &Part) {
    for _ in 0..part.pick(400, 600) {
        let conditions = conditions(random);
        let rows = random.pick(&[4, 6, 8, 12, 20, REQUIREMENT_ROWS_MOST]);
        let rows = random.between(1, rows);
        let rows = requirement(random, rows, conditions);
        let bytes = bytes_of(&rows);
        let steps = amount(random, 6, STEPS_MOST);
        let run = run(random, steps, conditions);
        batch.add(truth(&bytes, &run, conditions));
        let all = occurrences(&rows);
        // One past the last is asked for too.
        for _ in 0..3 {
            let which = random.below(all.len() + 1);
            let lent = 3 * TABLE_ROWS_MOST - random.below(20);
            batch.add(trap(&bytes, conditions, which, lent));
            batch.add(witness(&bytes, &run, conditions, which, steps + random.below(3)));
            if let Some(&row) = all.get(which) {
                batch.add(truth(&bytes_of(&trap::table(&rows, row)), &run, conditions));
            }
        }
    }
}

/// Long runs: requirements of any size, tables of many rows.
pub fn long_runs(batch: &mut Batch, random: &mut Random, part: &Part) {
    for _ in 0..part.pick(40, 60) {
        let conditions = conditions(random);
        let most = random.pick(&[5, 9, 16, REQUIREMENT_ROWS_MOST]);
        let rows = random.between(2, most);
        let rows = requirement(random, rows, conditions);
        let steps = random.pick(&[60, 300, 1_000, STEPS_MOST]);
        let steps = random.between(steps / 2, steps);
        // Few runs satisfy a requirement by chance, and only those cover anything: some more tries.
        let mut found = run(random, steps, conditions);
        for _ in 0..4 {
            if !holds(&rows, &found) {
                found = run(random, steps, conditions);
            }
        }
        let run = found;
        for (which, row) in occurrences(&rows).into_iter().enumerate().take(4) {
            batch.add(witness(&bytes_of(&rows), &run, conditions, which, steps));
            batch.add(truth(&bytes_of(&trap::table(&rows, row)), &run, conditions));
        }
        let many = random.between(1, TABLE_ROWS_MOST);
        batch.add(truth(&bytes_of(&table(random, many, conditions)), &run, conditions));
    }
}

/// Sheet, page and one list of a suite, lent enough or nearly so.
fn three(batch: &mut Batch, random: &mut Random, bytes: &[u8], requirements: usize, lent: usize) {
    batch.add(of_file(SHEET, bytes, 0, lent));
    batch.add(of_file(PAGE, bytes, 0, lent));
    batch.add(of_file(LIST, bytes, random.below(requirements + 1), lent));
}

pub fn suites(batch: &mut Batch, random: &mut Random, part: &Part) {
    for _ in 0..part.pick(800, 1_600) {
        let most = match random.below(40) {
            0 => Most { conditions: CONDITIONS_MOST, requirements: 4, rows: 16, runs: 4, steps: 24 },
            1 => Most { conditions: 3, requirements: REQUIREMENTS_MOST, rows: 4, runs: 8, steps: 4 },
            2 => Most { conditions: 3, requirements: 2, rows: 5, runs: RUNS_MOST, steps: 3 },
            _ => Most { conditions: 4, requirements: 3, rows: 7, runs: 3, steps: 5 },
        };
        let suite = suite(random, most);
        let bytes = file::write(&suite);
        check(Check::MadeAsMeant, file::read(&bytes).is_ok(), || format!("{suite:?}"));
        let lent = if random.once_in(4) { random.below(200) } else { 6_000 };
        three(batch, random, &bytes, suite.requirements.len(), lent);
    }
}

/// Suites near all limits at once: many requirements of many rows, and as many steps as fit into the bytes.
pub fn large_suites(batch: &mut Batch, random: &mut Random, part: &Part) {
    for number in 0..part.pick(1, 3) {
        let conditions = random.between(2, CONDITIONS_MOST);
        let (requirements, runs) = (random.between(12, REQUIREMENTS_MOST), random.between(RUNS_MOST / 2, RUNS_MOST));
        let mut rows = || {
            let rows = random.between(8, REQUIREMENT_ROWS_MOST);
            requirement(random, rows, conditions)
        };
        let mut suite = Suite { conditions, requirements: (0..requirements).map(|_| rows()).collect(), runs: vec![Vec::new(); runs] };
        let steps = (FILE_MOST - file::write(&suite).len()) / STEP_BYTES;
        suite.runs = (0..runs).map(|_| run(random, steps / runs, conditions)).collect();
        suite.runs[0].extend(run(random, steps % runs, conditions));
        let bytes = file::write(&suite);
        check(Check::MadeAsMeant, file::read(&bytes).is_ok(), || format!("{} bytes", bytes.len()));
        batch.add(of_file(if number % 2 == 0 { SHEET } else { PAGE }, &bytes, 0, 250_000));
        batch.add(of_file(LIST, &bytes, random.below(requirements), 4_096));
    }
}
