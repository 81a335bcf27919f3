//! The coverage list of a requirement, and the bench sheet's text.

use super::cover::covered;
use super::formula::{occurrences, Row};
use super::limits::COUNT_BYTES;
use super::suite::{read, Suite};
use super::truth::lines;
use super::{refusal, Refusal};
use std::fmt::Write;

/// What the runs say of one requirement.
pub struct Judged {
    pub occurrences: usize,
    pub held: usize,
    /// Occurrence and run of each covered pair, by occurrence and then by run.
    pub pairs: Vec<(usize, usize)>,
}

pub fn judge(rows: &[Row], runs: &[Vec<u32>]) -> Judged {
    let places = occurrences(rows);
    let mut judged = Judged { occurrences: places.len(), held: 0, pairs: Vec::new() };
    for (number, run) in runs.iter().enumerate() {
        let lines = lines(rows, run);
        judged.held += usize::from(lines[rows.len() - 1][0]);
        for (occurrence, &row) in places.iter().enumerate() {
            if covered(rows, run, &lines, row) {
                judged.pairs.push((occurrence, number));
            }
        }
    }
    judged.pairs.sort_unstable();
    judged
}

/// The list's bytes, and how many bytes must be lent for it.
pub fn list(file: &[u8], requirement: usize) -> Result<(Vec<u8>, usize), Refusal> {
    let suite = read(file)?;
    let rows = suite.requirements.get(requirement).ok_or(refusal(12))?;
    let judged = judge(rows, &suite.runs);
    let bytes = judged.pairs.iter().flat_map(|&(occurrence, run)| [occurrence as u8, run as u8]).collect();
    Ok((bytes, COUNT_BYTES * judged.occurrences * suite.runs.len()))
}

/// The bench sheet, whole.
pub fn text(suite: &Suite) -> String {
    let judged: Vec<Judged> = suite.requirements.iter().map(|rows| judge(rows, &suite.runs)).collect();
    let mut text = format!("suite {} {}\n", suite.requirements.len(), suite.runs.len());
    for (number, judged) in judged.iter().enumerate() {
        // Writing to a String cannot fail.
        let _ = writeln!(text, "req {number} occ {} held {}", judged.occurrences, judged.held);
        for (occurrence, run) in &judged.pairs {
            let _ = writeln!(text, "cov {number} {occurrence} {run}");
        }
    }
    for condition in 0..suite.conditions {
        let _ = writeln!(text, "cond {condition} {}", about_condition(suite, &judged, condition));
    }
    let _ = writeln!(text, "total {} {}", covered_occurrences(&judged), judged.iter().map(|judged| judged.occurrences).sum::<usize>());
    text
}

fn about_condition(suite: &Suite, judged: &[Judged], condition: usize) -> &'static str {
    let mut answer = "unused";
    for (rows, judged) in suite.requirements.iter().zip(judged) {
        for (occurrence, row) in occurrences(rows).into_iter().enumerate() {
            if usize::from(rows[row][1]) != condition {
                continue;
            }
            if judged.pairs.iter().any(|pair| pair.0 == occurrence) {
                return "yes";
            }
            answer = "no";
        }
    }
    answer
}

fn covered_occurrences(judged: &[Judged]) -> usize {
    let of_one = |judged: &Judged| (0..judged.occurrences).filter(|&o| judged.pairs.iter().any(|pair| pair.0 == o)).count();
    judged.iter().map(of_one).sum()
}

/// What the sheet program prints: the sheet, or the one line of a refusal.
pub fn page(file: &[u8]) -> String {
    match read(file) {
        Ok(suite) => text(&suite),
        Err(refusal) => format!("refused {} {}\n", refusal.number, refusal.place.number()),
    }
}
