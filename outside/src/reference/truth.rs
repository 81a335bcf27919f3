//! Truth over a run: by the quantifiers as document 01 has them, and by counting for long runs. Checks 10 and 11.

use super::formula::*;
use super::limits::{STEPS_MOST, STEP_BYTES};
use super::{refusal, refusal_at, Place, Refusal};
use crate::selfcheck::{check, Check};

/// The truth values of one row at all steps.
pub type Line = Vec<bool>;

/// An occurrence's row, and what it reads in place of its condition.
pub type Other<'a> = Option<(usize, &'a [bool])>;

/// Runs up to this length are judged by the quantifiers.
const QUANTIFIED: usize = 40;

/// The line of a kind, from the lines of its children.
type Rule = fn(kind: u8, a: &[bool], b: &[bool], n: usize) -> Line;

pub fn words(bytes: &[u8]) -> Vec<u32> {
    bytes.chunks_exact(STEP_BYTES).map(|w| u32::from_le_bytes([w[0], w[1], w[2], w[3]])).collect()
}

/// Check 11: the lowest step with a bit at or above the number of conditions.
pub fn wrong_step(run: &[u32], conditions: usize) -> Option<usize> {
    run.iter().position(|&word| u64::from(word) >> conditions != 0)
}

/// A lone run: checks 10, 11.
pub fn lone_run(run: &[u32], conditions: usize) -> Result<(), Refusal> {
    if run.is_empty() || run.len() > STEPS_MOST {
        return Err(refusal(10));
    }
    match wrong_step(run, conditions) {
        Some(step) => Err(refusal_at(11, Place::Step(step))),
        None => Ok(()),
    }
}

/// Document 01's "Truth over a run", word by word: a and b are the lines of the first and the second child.
fn by_quantifiers(kind: u8, a: &[bool], b: &[bool], n: usize) -> Line {
    let until = |i: usize| (i..n).any(|j| b[j] && (i..j).all(|k| a[k]));
    let globally = |i: usize| (i..n).all(|j| a[j]);
    let at = |i: usize| match kind {
        TRUE => true,
        NOT => !a[i],
        AND => a[i] && b[i],
        OR => a[i] || b[i],
        STRONG_NEXT => i + 1 < n && a[i + 1],
        WEAK_NEXT => i + 1 == n || a[i + 1],
        UNTIL => until(i),
        RELEASE => (i..n).all(|j| b[j] || (i..j).any(|k| a[k])),
        FINALLY => (i..n).any(|j| a[j]),
        GLOBALLY => globally(i),
        WEAK_UNTIL => until(i) || globally(i),
        _ => false,
    };
    (0..n).map(at).collect()
}

/// How many steps before each one have the value, and where those are.
struct Counted {
    before: Vec<usize>,
    places: Vec<usize>,
}

impl Counted {
    fn of(line: &[bool], value: bool) -> Counted {
        let mut counted = Counted { before: Vec::with_capacity(line.len() + 1), places: Vec::new() };
        for (step, &v) in line.iter().enumerate() {
            counted.before.push(counted.places.len());
            if v == value {
                counted.places.push(step);
            }
        }
        counted.before.push(counted.places.len());
        counted
    }

    /// The first such step from i on.
    fn first(&self, i: usize) -> Option<usize> {
        self.places.get(self.before[i]).copied()
    }

    /// How many such steps there are from i up to but not including j.
    fn between(&self, i: usize, j: usize) -> usize {
        self.before[j] - self.before[i]
    }
}

/// The same lines by counting: whether some or every step of a part of the run has a value is a matter of how many have it.
fn by_counting(kind: u8, a: &[bool], b: &[bool], n: usize) -> Line {
    match kind {
        UNTIL | WEAK_UNTIL => {
            let (no_a, yes_b) = (Counted::of(a, false), Counted::of(b, true));
            let weak = kind == WEAK_UNTIL;
            let at = |i: usize| match yes_b.first(i) {
                Some(j) => no_a.between(i, j) == 0,
                None => weak && no_a.between(i, n) == 0,
            };
            (0..n).map(at).collect()
        }
        RELEASE => {
            let (yes_a, no_b) = (Counted::of(a, true), Counted::of(b, false));
            (0..n).map(|i| no_b.first(i).is_none_or(|j| yes_a.between(i, j) > 0)).collect()
        }
        FINALLY => {
            let yes_a = Counted::of(a, true);
            (0..n).map(|i| yes_a.between(i, n) > 0).collect()
        }
        GLOBALLY => {
            let no_a = Counted::of(a, false);
            (0..n).map(|i| no_a.between(i, n) == 0).collect()
        }
        STRONG_NEXT => (1..n).map(|i| a[i]).chain([false]).collect(),
        WEAK_NEXT => (1..n).map(|i| a[i]).chain([true]).collect(),
        NOT => a.iter().map(|v| !v).collect(),
        AND => a.iter().zip(b).map(|(v, w)| *v && *w).collect(),
        OR => a.iter().zip(b).map(|(v, w)| *v || *w).collect(),
        _ => vec![kind == TRUE; n],
    }
}

fn lines_by(rule: Rule, rows: &[Row], run: &[u32], other: Other) -> Vec<Line> {
    let mut lines: Vec<Line> = Vec::with_capacity(rows.len());
    for (number, &[kind, first, second]) in rows.iter().enumerate() {
        let line = match (other, fields(kind)) {
            (Some((row, sequence)), _) if row == number => sequence.to_vec(),
            (_, Some(Fields::Condition)) => run.iter().map(|word| word >> first & 1 == 1).collect(),
            (_, Some(Fields::Neither)) => rule(kind, &[], &[], run.len()),
            (_, Some(Fields::OneRow)) => rule(kind, &lines[usize::from(first)], &[], run.len()),
            _ => rule(kind, &lines[usize::from(first)], &lines[usize::from(second)], run.len()),
        };
        lines.push(line);
    }
    lines
}

fn verdict(lines: &[Line]) -> bool {
    lines.last().is_some_and(|line| line[0])
}

/// The lines of all rows: short runs by the quantifiers, which also checks the counting, long ones by counting.
pub fn lines(rows: &[Row], run: &[u32]) -> Vec<Line> {
    let counted = lines_by(by_counting, rows, run, None);
    if run.len() > QUANTIFIED {
        return counted;
    }
    let quantified = lines_by(by_quantifiers, rows, run, None);
    check(Check::CountingIsQuantifiers, counted == quantified, || format!("{rows:?} {run:?}"));
    quantified
}

/// The truth at step 0.
pub fn holds(rows: &[Row], run: &[u32]) -> bool {
    verdict(&lines(rows, run))
}

/// The truth at step 0 where an occurrence reads a sequence in place of its condition.
pub fn holds_with(rows: &[Row], run: &[u32], row: usize, sequence: &[bool]) -> bool {
    let rule: Rule = if run.len() > QUANTIFIED { by_counting } else { by_quantifiers };
    verdict(&lines_by(rule, rows, run, Some((row, sequence))))
}
