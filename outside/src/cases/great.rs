//! Requirements and suites at the limits.

use crate::reference::formula::*;
use crate::reference::limits::*;
use crate::reference::suite::{write, Suite};

/// Condition 0 under so many rows of one kind.
pub fn chain(kind: u8, rows: usize) -> Vec<Row> {
    (0..rows).map(|row| if row == 0 { [CONDITION, 0, 0] } else { [kind, (row - 1) as u8, 0] }).collect()
}

/// A right suite of exactly so many bytes, of 400 or more.
pub fn filled_suite(bytes: usize) -> Vec<u8> {
    const RUNS: usize = 5;
    let bodies = bytes - FILE_LEAST - ENTRY_BYTES * (1 + RUNS);
    let rows = (1..=STEP_BYTES).find(|rows| (bodies - ROW_BYTES * rows) % STEP_BYTES == 0).unwrap_or(1);
    let steps = (bodies - ROW_BYTES * rows) / STEP_BYTES;
    let mut runs: Vec<Vec<u32>> = (0..RUNS).map(|run| vec![run as u32 % 4; steps / RUNS]).collect();
    runs[0].extend(vec![0; steps % RUNS]);
    write(&Suite { conditions: 2, requirements: vec![chain(FINALLY, rows)], runs })
}

/// As many requirements, rows and runs as there may be, and as long runs as then fit.
pub fn largest_suite() -> Vec<u8> {
    let requirements = (0..REQUIREMENTS_MOST).map(|n| chain([FINALLY, GLOBALLY, WEAK_NEXT][n % 3], REQUIREMENT_ROWS_MOST)).collect();
    let mut suite = Suite { conditions: CONDITIONS_MOST, requirements, runs: vec![vec![]; RUNS_MOST] };
    let steps = (FILE_MOST - write(&suite).len()) / STEP_BYTES;
    suite.runs = (0..RUNS_MOST).map(|run| vec![!(run as u32); steps / RUNS_MOST]).collect();
    suite.runs[0].extend(vec![1; steps % RUNS_MOST]);
    write(&suite)
}

/// Every pair is covered, and there are as many pairs as can be: one "and" of 16 conditions, 64 runs where all are true.
pub fn fullest_suite() -> Vec<u8> {
    let half = REQUIREMENT_ROWS_MOST / 2;
    let mut rows: Vec<Row> = (0..half).map(|condition| [CONDITION, condition as u8, 0]).collect();
    for child in (0..2 * half - 2).step_by(2) {
        rows.push([AND, child as u8, child as u8 + 1]);
    }
    rows.push([GLOBALLY, rows.len() as u8 - 1, 0]);
    let (requirements, runs) = (vec![rows; REQUIREMENTS_MOST], vec![vec![u32::MAX]; RUNS_MOST]);
    write(&Suite { conditions: CONDITIONS_MOST, requirements, runs })
}
