//! All tables of two and three rows with kinds 0 to 13 and small fields, right or wrong.

use super::make::{trap, truth, witness};
use super::Part;
use crate::batch::Batch;
use crate::random::Random;
use crate::reference::formula::{bytes_of, Row, WEAK_UNTIL};

const CONDITIONS: usize = 2;
/// Enough for the trap table of three rows.
const LENT: usize = 48;

pub fn make(batch: &mut Batch, random: &mut Random, part: &Part) {
    let runs: [&[u32]; 4] = [&[1, 2], &[3, 1], &[0, 2], &[2]];
    let wide = all_rows(2);
    let pairs = wide.len() * wide.len();
    for number in (0..pairs).filter(|&number| part.has(number)) {
        let table = bytes_of(&[wide[number / wide.len()], wide[number % wide.len()]]);
        batch.add(truth(&table, runs[random.below(runs.len())], CONDITIONS));
        batch.add(trap(&table, CONDITIONS, 0, LENT));
        batch.add(witness(&table, runs[random.below(runs.len())], CONDITIONS, 0, 2));
    }
    let narrow = all_rows(1);
    let (side, skip) = (narrow.len(), part.pick(12, 1));
    for number in (0..side * side * side).filter(|&number| part.has(number)) {
        if skip > 1 && !random.once_in(skip) {
            continue;
        }
        let table = bytes_of(&[narrow[number / side / side], narrow[number / side % side], narrow[number % side]]);
        batch.add(truth(&table, runs[random.below(runs.len())], CONDITIONS));
        batch.add(trap(&table, CONDITIONS, 0, LENT));
    }
    // Three rows with wider fields are too many for all of them.
    for _ in 0..part.pick(500, 4_000) {
        let table = bytes_of(&[random.pick(&wide), random.pick(&wide), random.pick(&wide)]);
        batch.add(witness(&table, runs[random.below(runs.len())], CONDITIONS, random.below(2), 2));
    }
}

fn all_rows(most: u8) -> Vec<Row> {
    let mut rows = Vec::new();
    for kind in 0..=WEAK_UNTIL + 1 {
        for first in 0..=most {
            rows.extend((0..=most).map(|second| [kind, first, second]));
        }
    }
    rows
}
