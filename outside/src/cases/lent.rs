//! Lent parts of every length around the needed one; what is not written must stay as it was filled.

use super::make::*;
use super::Part;
use crate::batch::Batch;
use crate::case::{LIST, PAGE, SHEET, WORD_BYTES};
use crate::random::Random;
use crate::reference::formula::{bytes_of, occurrences};
use crate::reference::{sheet, suite as file, trap};

/// All lengths to somewhat past the need; of a great need those beside it, and a few shorter ones.
fn around(random: &mut Random, need: usize) -> Vec<usize> {
    if need <= 24 {
        return (0..need + 4).collect();
    }
    let mut lengths: Vec<usize> = (need - 4..need + 4).collect();
    lengths.extend([0, 1, need / 2, random.below(need), need * 2]);
    lengths
}

pub fn make(batch: &mut Batch, random: &mut Random, part: &Part) {
    for _ in 0..part.pick(60, 90) {
        table(batch, random);
        of_suite(batch, random);
        log(batch, random);
    }
}

fn table(batch: &mut Batch, random: &mut Random) {
    let rows = random.between(1, 14);
    let rows = requirement(random, rows, 3);
    let (all, bytes) = (occurrences(&rows), bytes_of(&rows));
    if all.is_empty() {
        batch.add(trap(&bytes, 3, 0, random.below(9)));
        return;
    }
    let which = random.below(all.len());
    for lent in around(random, bytes_of(&trap::table(&rows, all[which])).len()) {
        batch.add(trap(&bytes, 3, which, lent));
    }
    for _ in 0..4 {
        let steps = random.between(1, 12);
        let run = run(random, steps, 3);
        for lent in around(random, steps) {
            batch.add(witness(&bytes, &run, 3, which, lent));
        }
    }
}

fn of_suite(batch: &mut Batch, random: &mut Random) {
    let suite = suite(random, Most { conditions: 4, requirements: 2, rows: 7, runs: 3, steps: 4 });
    let bytes = file::write(&suite);
    let text = sheet::text(&suite).len();
    for lent in around(random, text) {
        batch.add(of_file(SHEET, &bytes, 0, lent));
        batch.add(of_file(PAGE, &bytes, 0, lent));
    }
    let which = random.below(suite.requirements.len());
    for lent in around(random, 2 * occurrences(&suite.requirements[which]).len() * suite.runs.len()) {
        batch.add(of_file(LIST, &bytes, which, lent));
    }
    // The line of a refusal has its own length.
    let cut = &bytes[..random.below(bytes.len())];
    for lent in around(random, sheet::page(cut).len()) {
        batch.add(of_file(PAGE, cut, 0, lent));
        batch.add(of_file(SHEET, cut, 0, lent));
    }
}

fn log(batch: &mut Batch, random: &mut Random) {
    let steps = random.between(1, 6);
    let log: Vec<u8> = (0..2 * steps).map(|_| random.byte() & 0x8F).collect();
    for lent in 0..WORD_BYTES * steps + 6 {
        batch.add(recorded(&log, &[0, 100], lent));
    }
}
