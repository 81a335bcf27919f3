//! Recorded runs (wish 5).

use super::make::{of_file, recorded};
use super::Part;
use crate::batch::Batch;
use crate::case::{TRAVEL, WORD_BYTES};
use crate::random::Random;
use crate::reference::limits::{CONDITIONS_MOST, STEPS_MOST};
use crate::reference::log::{page, travel};

const HALF_TURN: usize = 32_768;

pub fn make(batch: &mut Batch, random: &mut Random, part: &Part) {
    for _ in 0..part.pick(3_000, 5_000) {
        let steps = match random.below(400) {
            0 => random.pick(&[STEPS_MOST - 1, STEPS_MOST, STEPS_MOST + 1]),
            1..=8 => random.below(600),
            _ => random.below(12),
        };
        let mut log = log(random, steps);
        if random.once_in(40) {
            log.push(random.byte());
        }
        let limits = limits(random, &log);
        let need = WORD_BYTES * steps;
        let lent = if random.once_in(4) { need.saturating_sub(4) + random.below(9) } else { need + random.below(9) };
        batch.add(recorded(&log, &limits, lent));
        batch.add(of_file(TRAVEL, &log, 0, (page(&log).len() + 2).saturating_sub(random.below(4))));
    }
}

/// Small moves, leaps beside half a turn, or any counts.
pub fn log(random: &mut Random, steps: usize) -> Vec<u8> {
    let manner = random.below(4);
    let mut count = random.below(2 * HALF_TURN);
    let mut log = Vec::with_capacity(2 * steps);
    for _ in 0..steps {
        log.extend((count as u16).to_le_bytes());
        // Added to a count, 65,536 more or less is the same.
        count += match manner {
            0 => 2 * HALF_TURN + random.below(9) - 4,
            1 => HALF_TURN + random.pick(&[0, 1, 2, 2 * HALF_TURN - 1, 2 * HALF_TURN - 2, 1, 2, 3]),
            2 => random.pick(&[HALF_TURN - 1, HALF_TURN + 1]),
            _ => random.below(2 * HALF_TURN),
        };
        count %= 2 * HALF_TURN;
    }
    log
}

/// 0 to 33 limits beside the travels, at the ends of the range, or anywhere.
fn limits(random: &mut Random, log: &[u8]) -> Vec<i32> {
    let many = random.pick(&[1, 2, 4, CONDITIONS_MOST + 1]);
    let count = if random.once_in(20) { random.pick(&[0, 1, CONDITIONS_MOST, CONDITIONS_MOST + 1]) } else { random.between(1, many) };
    let travels = travel(log).unwrap_or_else(|_| vec![0, 1, -1]);
    let mut limit = || match random.below(12) {
        0 => random.pick(&[i32::MIN, i32::MIN + 1, i32::MAX, i32::MAX - 1, 0, -1]),
        1 => random.word() as i32,
        _ => random.pick(&travels) as i32 + random.pick(&[-1, 0, 0, 1]),
    };
    (0..count).map(|_| limit()).collect()
}
