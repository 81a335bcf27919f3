//! Several faults at once, in every choice of faults: the order of the checks decides.

use super::make::*;
use crate::batch::Batch;
use crate::case::{LIST, PAGE, SHEET};
use crate::reference::formula::*;
use crate::reference::limits::{FILE_MOST, STEPS_MOST};
use crate::reference::suite::{write, Suite};

/// finally (a and b).
const REQUIREMENT: [Row; 4] = [[CONDITION, 0, 0], [CONDITION, 1, 0], [AND, 0, 1], [FINALLY, 2, 0]];
const UNKNOWN: u8 = WEAK_UNTIL + 1;

/// Every choice out of so many faults; the closure asks whether a fault is chosen.
fn choices(faults: u32, mut make: impl FnMut(&dyn Fn(u32) -> bool)) {
    for bits in 0..1u32 << faults {
        make(&|fault| bits >> fault & 1 == 1);
    }
}

/// Faults 0 to 7 are the refusals 3, 7, 8, 9, 10, 11, 12, 14.
pub fn lone(batch: &mut Batch) {
    choices(8, |has| {
        let mut table = bytes_of(&REQUIREMENT);
        let mut run = vec![3; if has(4) { STEPS_MOST + 1 } else { 3 }];
        if has(1) {
            table.push(0);
        }
        if has(2) {
            table[3] = UNKNOWN;
        }
        if has(3) {
            table[8] = 0;
        }
        if has(5) {
            run[1] = 4;
            run[2] = 8;
        }
        let (conditions, which, lent) = (if has(0) { 33 } else { 2 }, if has(6) { 2 } else { 1 }, if has(7) { 2 } else { 60 });
        batch.add(witness(&table, &run, conditions, which, lent));
        batch.add(trap(&table, conditions, which, lent));
        batch.add(truth(&table, &run, conditions));
    });
}

fn small_suite() -> Suite {
    Suite { conditions: 2, requirements: vec![REQUIREMENT.to_vec(), REQUIREMENT.to_vec()], runs: vec![vec![3, 0], vec![0, 3, 1]] }
}

/// Faults 0 to 10 are the refusals 1, 2, 3, 4, 5, 6, 8, 9, 11, 12, 14.
pub fn files(batch: &mut Batch) {
    choices(11, |has| {
        let mut suite = small_suite();
        if has(6) {
            suite.requirements[1][2][0] = UNKNOWN;
        }
        if has(7) {
            suite.requirements[1][2][2] = 0;
        }
        if has(8) {
            suite.runs[1][1] = 4;
        }
        let mut file = write(&suite);
        if has(1) {
            file[0] = 2;
        }
        if has(2) {
            file[1] = 33;
        }
        if has(4) {
            file[8] ^= 1;
        }
        if has(5) {
            file.push(0);
        }
        if has(3) {
            file.truncate(18);
        }
        // Both too long and cut in the contents cannot be: the length goes first.
        if has(0) {
            file.resize(if has(3) { 3 } else { FILE_MOST + 1 }, 0);
        }
        let (which, lent) = (if has(9) { 2 } else { 1 }, if has(10) { 3 } else { 300 });
        batch.add(of_file(LIST, &file, which, lent));
        batch.add(of_file(SHEET, &file, 0, lent));
        batch.add(of_file(PAGE, &file, 0, lent));
    });
}

/// Faults of the first and the second requirement, at two rows each, and of the first and the second run.
pub fn two_bodies(batch: &mut Batch) {
    choices(10, |has| {
        let mut suite = small_suite();
        for requirement in 0..2 {
            let first = 4 * requirement as u32;
            let rows = &mut suite.requirements[requirement];
            if has(first) {
                rows[1] = [CONDITION, 2, 0];
            }
            if has(first + 1) {
                rows[2][2] = 0;
            }
            if has(first + 2) {
                rows[3] = [NOT, 2, 0];
            }
            if has(first + 3) {
                rows[3][2] = 1;
            }
        }
        if has(8) {
            suite.runs[0][1] = 4;
        }
        if has(9) {
            suite.runs[1][0] = 1 << 31;
            suite.runs[1][2] = 4;
        }
        let file = write(&suite);
        batch.add(of_file(PAGE, &file, 0, 200));
        batch.add(of_file(LIST, &file, 0, 200));
        let rows = bytes_of(&suite.requirements[0]);
        batch.add(witness(&rows, &suite.runs[0], 2, 0, 2));
        batch.add(truth(&rows, &suite.runs[1], 2));
    });
}

/// Faults 0 to 4 are: no limit, an odd byte, too many steps, half a turn twice, too few words.
pub fn logs(batch: &mut Batch) {
    choices(5, |has| {
        let mut log = vec![0; if has(2) { 2 * STEPS_MOST + 2 } else { 12 }];
        if has(3) {
            log[5] = 0x80;
        }
        if has(1) {
            log.push(0);
        }
        let (limits, words): (&[i32], usize) = (if has(0) { &[] } else { &[0, 1] }, if has(4) { 5 } else { 6 });
        batch.add(recorded(&log, limits, 4 * words));
    });
}
