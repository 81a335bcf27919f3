//! Document 02, wish 5: taking in a recorded run.

use super::formula::check_conditions;
use super::limits::{COUNT_BYTES, STEPS_MOST};
use super::{refusal, refusal_at, Place, Refusal};
use crate::selfcheck::{check, Check};

const TURN: i64 = 65_536;
const HALF_TURN: i64 = 32_768;

/// The travel at each step. Refusals 10 and 17.
pub fn travel(log: &[u8]) -> Result<Vec<i64>, Refusal> {
    let steps = log.len() / COUNT_BYTES;
    if log.len() % COUNT_BYTES != 0 || !(1..=STEPS_MOST).contains(&steps) {
        return Err(refusal(10));
    }
    let counts: Vec<i64> = log.chunks_exact(COUNT_BYTES).map(|count| i64::from(count[0]) + 256 * i64::from(count[1])).collect();
    let mut travel = vec![0];
    for step in 1..steps {
        // The one number that is the difference up to whole turns and lies between the two half turns.
        let mut difference = counts[step] - counts[step - 1];
        if difference.abs() == HALF_TURN {
            return Err(refusal_at(17, Place::Step(step)));
        }
        if difference > HALF_TURN {
            difference -= TURN;
        }
        if difference < -HALF_TURN {
            difference += TURN;
        }
        travel.push(travel[step - 1] + difference);
    }
    check(Check::TravelIsCount, travel_is_count(&counts, &travel), || format!("{log:?}"));
    Ok(travel)
}

/// Up to whole turns the travel is how far the count is from the first, and no step is half a turn or more.
fn travel_is_count(counts: &[i64], travel: &[i64]) -> bool {
    let whole_turns = counts.iter().zip(travel).all(|(count, at)| (at - (count - counts[0])) % TURN == 0);
    whole_turns && travel.windows(2).all(|pair| (pair[1] - pair[0]).abs() < HALF_TURN)
}

/// The lone run of a log, one word a step.
pub fn recorded_run(log: &[u8], limits: &[i32], lent_words: usize) -> Result<Vec<u32>, Refusal> {
    check_conditions(limits.len())?;
    let travel = travel(log)?;
    if lent_words < travel.len() {
        return Err(refusal(14));
    }
    let word = |&at: &i64| limits.iter().enumerate().map(|(c, &limit)| u32::from(at >= i64::from(limit)) << c).sum();
    Ok(travel.iter().map(word).collect())
}

/// What the program `travel` prints: the travel at each step, or the one line of a refusal.
pub fn page(log: &[u8]) -> String {
    match travel(log) {
        Ok(travel) => travel.iter().map(|at| format!("{at}\n")).collect(),
        Err(refusal) => format!("refused {} {}\n", refusal.number, refusal.place.number()),
    }
}
