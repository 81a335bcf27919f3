//! Each limit from both sides, and then several faults at once.

use super::faults;
use super::great::{chain, filled_suite, fullest_suite, largest_suite};
use super::make::*;
use super::Part;
use crate::batch::Batch;
use crate::case::{Case, LIST, PAGE, SHEET, WORD_BYTES};
use crate::random::Random;
use crate::reference::formula::*;
use crate::reference::limits::*;
use crate::reference::suite::{write, Suite};

const ALL_ONES: usize = u32::MAX as usize;

pub fn make(batch: &mut Batch, random: &mut Random, _: &Part) {
    table_limits(batch);
    run_limits(batch, random);
    condition_limits(batch);
    suite_counts(batch, random);
    suite_bodies(batch);
    suite_bytes(batch);
    log_limits(batch);
    faults::lone(batch);
    faults::files(batch);
    faults::two_bodies(batch);
    faults::logs(batch);
    for operation in [0, 9, 10, 255, u32::MAX] {
        batch.add(Case { operation, table: vec![2, 0, 0], more: vec![1, 0, 0, 0], conditions: 1, lent: 5, ..Case::default() });
    }
}

fn table_limits(batch: &mut Batch) {
    for rows in [0, 1, 2, 31, 32, 33, 34, 155, 156, 223, 224, 225, 226, 255, 256, 257, 300] {
        for kind in [FINALLY, GLOBALLY, WEAK_NEXT] {
            let bytes = bytes_of(&chain(kind, rows));
            for extra in 0..3 {
                let table = [&bytes[..], &vec![0; extra]].concat();
                batch.add(truth(&table, &[1, 0, 1], 1));
                batch.add(trap(&table, 1, 0, 3 * TABLE_ROWS_MOST));
                batch.add(witness(&table, &[1, 0, 1], 1, 0, 3));
            }
        }
    }
    // The longest trap table there is, lent just enough and one byte less.
    let longest = bytes_of(&chain(FINALLY, REQUIREMENT_ROWS_MOST));
    let rows = REQUIREMENT_ROWS_MOST + 4 * (REQUIREMENT_ROWS_MOST - 1);
    for lent in 3 * rows - 3..3 * rows + 3 {
        batch.add(trap(&longest, 1, 0, lent));
    }
    for which in [0, 1, 2, 255, 256, ALL_ONES] {
        let table = bytes_of(&[[CONDITION, 0, 0], [CONDITION, 0, 0], [AND, 0, 1]]);
        batch.add(trap(&table, 1, which, 40));
        batch.add(witness(&table, &[1], 1, which, 1));
    }
}

fn run_limits(batch: &mut Batch, random: &mut Random) {
    for steps in [0, 1, 2, STEPS_MOST - 1, STEPS_MOST, STEPS_MOST + 1, STEPS_MOST + 100] {
        let mut run = vec![0; steps];
        if let Some(last) = run.last_mut() {
            *last = 1;
        }
        for kind in [FINALLY, GLOBALLY, STRONG_NEXT, WEAK_NEXT] {
            for rows in [1, 2, REQUIREMENT_ROWS_MOST] {
                let table = bytes_of(&chain(kind, rows));
                batch.add(truth(&table, &run, 1));
                for lent in [steps.saturating_sub(1), steps, steps + 1] {
                    batch.add(witness(&table, &run, 1, 0, lent));
                }
            }
        }
        for _ in 0..8 {
            let table = bytes_of(&requirement(random, REQUIREMENT_ROWS_MOST, 1));
            batch.add(witness(&table, &run, 1, 0, steps));
        }
    }
}

fn condition_limits(batch: &mut Batch) {
    for conditions in (0..=CONDITIONS_MOST + 2).chain([64, 255, 256, 257, 288, ALL_ONES]) {
        for read in [0, conditions.saturating_sub(1), conditions, 255] {
            let table = [CONDITION, read as u8, 0];
            batch.add(truth(&table, &[u32::MAX], conditions));
            batch.add(trap(&table, conditions, 0, 3));
            for bit in [conditions.saturating_sub(1), conditions, 31] {
                let run = [0, 1 << bit.min(31), 1 << 31];
                batch.add(truth(&table, &run, conditions));
                batch.add(witness(&table, &run[..2], conditions, 0, 2));
            }
        }
    }
}

fn three(batch: &mut Batch, file: &[u8]) {
    batch.add(of_file(SHEET, file, 0, 30_000));
    batch.add(of_file(PAGE, file, 0, 30_000));
    for which in [0, REQUIREMENTS_MOST - 1, REQUIREMENTS_MOST, 255, ALL_ONES] {
        batch.add(of_file(LIST, file, which, 5_000));
    }
}

/// The three counts, in files that have as many, and in files where only the count is another.
fn suite_counts(batch: &mut Batch, random: &mut Random) {
    for conditions in [0, 1, CONDITIONS_MOST - 1, CONDITIONS_MOST, CONDITIONS_MOST + 1, 255] {
        for requirements in [0, 1, REQUIREMENTS_MOST - 1, REQUIREMENTS_MOST, REQUIREMENTS_MOST + 1] {
            for runs in [0, 1, RUNS_MOST - 1, RUNS_MOST, RUNS_MOST + 1] {
                let rows = (0..requirements).map(|_| requirement(random, 4, conditions.clamp(1, CONDITIONS_MOST))).collect();
                let runs = vec![vec![1, 0]; runs];
                three(batch, &write(&Suite { conditions, requirements: rows, runs }));
            }
        }
    }
    let one = Suite { conditions: 1, requirements: vec![chain(FINALLY, 2)], runs: vec![vec![1, 0]] };
    for place in 0..4 {
        for value in 0..=255 {
            let mut file = write(&one);
            file[place] = value;
            batch.add(of_file(PAGE, &file, 0, 200));
        }
    }
}

/// Rows and steps, and starts that no two bytes can say: those must not wrap.
fn suite_bodies(batch: &mut Batch) {
    let suite = |rows: usize, steps: &[usize]| Suite {
        conditions: 1,
        requirements: vec![chain(WEAK_NEXT, rows)],
        runs: steps.iter().map(|&steps| vec![1; steps]).collect(),
    };
    for rows in [0, 1, REQUIREMENT_ROWS_MOST, REQUIREMENT_ROWS_MOST + 1, 256, 257] {
        for steps in [0, 1, STEPS_MOST, STEPS_MOST + 1] {
            three(batch, &write(&suite(rows, &[1, steps])));
        }
    }
    for runs in [4, 5, 16, 17, RUNS_MOST] {
        let mut file = write(&suite(1, &vec![STEPS_MOST; runs]));
        for length in [4 + 4 * (1 + runs), FILE_MOST - 1, FILE_MOST, FILE_MOST + 1] {
            file.resize(length, 0);
            three(batch, &file);
        }
    }
}

fn suite_bytes(batch: &mut Batch) {
    for lent in [2 * 16 * RUNS_MOST - 1, 2 * 16 * RUNS_MOST, 262_144] {
        batch.add(of_file(LIST, &fullest_suite(), REQUIREMENTS_MOST - 1, lent));
        batch.add(of_file(SHEET, &fullest_suite(), 0, lent));
        batch.add(of_file(PAGE, &fullest_suite(), 0, lent));
    }
    for bytes in [400, 401, FILE_MOST - 2, FILE_MOST - 1, FILE_MOST, FILE_MOST + 1, FILE_MOST + 2, FILE_MOST + 4_000] {
        three(batch, &filled_suite(bytes));
    }
    three(batch, &largest_suite());
    for bytes in 0..FILE_LEAST + 2 {
        three(batch, &[1; FILE_LEAST + 2][..bytes]);
    }
}

fn log_limits(batch: &mut Batch) {
    for bytes in [0, 1, 2, 3, 4, 5, 2 * STEPS_MOST - 1, 2 * STEPS_MOST, 2 * STEPS_MOST + 1, 2 * STEPS_MOST + 2, 2 * STEPS_MOST + 4] {
        for limits in [0, 1, CONDITIONS_MOST, CONDITIONS_MOST + 1, 64] {
            for words in [(bytes / 2).saturating_sub(1), bytes / 2, bytes / 2 + 1] {
                batch.add(recorded(&vec![0; bytes], &vec![0; limits], WORD_BYTES * words));
            }
        }
    }
    // The farthest travel: each step a half turn less one, up or down.
    for difference in [0x7FFFu16, 0x8001] {
        let log: Vec<u8> = (0..STEPS_MOST).flat_map(|step| difference.wrapping_mul(step as u16).to_le_bytes()).collect();
        let farthest = 32_767 * (STEPS_MOST as i32 - 1);
        let limits = [farthest - 1, farthest, farthest + 1, -farthest, -farthest + 1, -farthest - 1, i32::MAX, i32::MIN];
        batch.add(recorded(&log, &limits, WORD_BYTES * STEPS_MOST));
    }
}
