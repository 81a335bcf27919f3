//! The suite file: checks 1 to 6, then 8 and 9 of each requirement, then 11 of each run.

use super::formula::{row_of_no_requirement, wrong_row, Row};
use super::limits::*;
use super::truth::wrong_step;
use super::{refusal, refusal_at, Place, Refusal};
use crate::selfcheck::{check, Check};

pub const FORM: u8 = 1;

#[derive(Clone, Debug)]
pub struct Suite {
    pub conditions: usize,
    pub requirements: Vec<Vec<Row>>,
    pub runs: Vec<Vec<u32>>,
}

struct Cursor<'a> {
    file: &'a [u8],
    at: usize,
}

impl Cursor<'_> {
    fn byte(&mut self) -> Option<u8> {
        let byte = self.file.get(self.at).copied();
        self.at += 1;
        byte
    }

    fn two(&mut self) -> Option<usize> {
        Some(usize::from(u16::from_le_bytes([self.byte()?, self.byte()?])))
    }

    fn four(&mut self) -> Option<u32> {
        Some(u32::from_le_bytes([self.byte()?, self.byte()?, self.byte()?, self.byte()?]))
    }

    fn row(&mut self) -> Option<Row> {
        Some([self.byte()?, self.byte()?, self.byte()?])
    }
}

/// A line of the contents: where it stands itself, and what it says.
struct Entry {
    at: usize,
    start: usize,
    count: usize,
}

pub fn read(file: &[u8]) -> Result<Suite, Refusal> {
    if file.len() < FILE_LEAST || file.len() > FILE_MOST {
        return Err(refusal(1));
    }
    let mut cursor = Cursor { file, at: 0 };
    if cursor.byte() != Some(FORM) {
        return Err(refusal(2));
    }
    let mut count = |most: usize| cursor.byte().map(usize::from).filter(|count| (1..=most).contains(count)).ok_or(refusal(3));
    let (conditions, requirements, runs) = (count(CONDITIONS_MOST)?, count(REQUIREMENTS_MOST)?, count(RUNS_MOST)?);
    let entries = read_contents(&mut cursor, requirements + runs).ok_or(refusal(4))?;
    let end = check_entries(&entries, requirements, cursor.at)?;
    if end != file.len() {
        return Err(refusal(6));
    }
    let suite = read_bodies(&mut cursor, &entries, conditions, requirements)?;
    check(Check::SuiteWrittenAgain, write(&suite) == file, || format!("{file:?}"));
    Ok(suite)
}

fn read_contents(cursor: &mut Cursor, entries: usize) -> Option<Vec<Entry>> {
    (0..entries).map(|_| Some(Entry { at: cursor.at, start: cursor.two()?, count: cursor.two()? })).collect()
}

/// Check 5: each entry in turn; says where the last body ends. The body's place is reckoned without a limit.
fn check_entries(entries: &[Entry], requirements: usize, bodies: usize) -> Result<usize, Refusal> {
    let mut begin = bodies;
    for (number, entry) in entries.iter().enumerate() {
        let (most, bytes) = if number < requirements { (REQUIREMENT_ROWS_MOST, ROW_BYTES) } else { (STEPS_MOST, STEP_BYTES) };
        if entry.start != begin || entry.count < 1 || entry.count > most {
            return Err(refusal_at(5, Place::Byte(entry.at)));
        }
        begin += entry.count * bytes;
    }
    Ok(begin)
}

/// Checks 8 and 9 of each requirement in turn, then 11 of each run. The bodies are whole, since check 6 went before.
fn read_bodies(cursor: &mut Cursor, entries: &[Entry], conditions: usize, requirements: usize) -> Result<Suite, Refusal> {
    let mut suite = Suite { conditions, requirements: Vec::new(), runs: Vec::new() };
    for entry in &entries[..requirements] {
        let rows = (0..entry.count).map(|_| cursor.row()).collect::<Option<Vec<Row>>>().ok_or(refusal(6))?;
        let at = |row: usize| Place::Byte(entry.start + ROW_BYTES * row);
        if let Some(row) = wrong_row(&rows, conditions) {
            return Err(refusal_at(8, at(row)));
        }
        if let Some(row) = row_of_no_requirement(&rows) {
            return Err(refusal_at(9, at(row)));
        }
        suite.requirements.push(rows);
    }
    for entry in &entries[requirements..] {
        let run = (0..entry.count).map(|_| cursor.four()).collect::<Option<Vec<u32>>>().ok_or(refusal(6))?;
        if let Some(step) = wrong_step(&run, conditions) {
            return Err(refusal_at(11, Place::Byte(entry.start + STEP_BYTES * step)));
        }
        suite.runs.push(run);
    }
    Ok(suite)
}

/// Writes any suite, also one beyond the limits: counts and starts are then cut to their bytes.
pub fn write(suite: &Suite) -> Vec<u8> {
    let mut file = vec![FORM, suite.conditions as u8, suite.requirements.len() as u8, suite.runs.len() as u8];
    let mut begin = file.len() + ENTRY_BYTES * (suite.requirements.len() + suite.runs.len());
    let rows = suite.requirements.iter().map(|rows| (rows.len(), ROW_BYTES));
    let steps = suite.runs.iter().map(|run| (run.len(), STEP_BYTES));
    for (count, bytes) in rows.chain(steps) {
        file.extend((begin as u16).to_le_bytes());
        file.extend((count as u16).to_le_bytes());
        begin += count * bytes;
    }
    for rows in &suite.requirements {
        file.extend(rows.concat());
    }
    for word in suite.runs.iter().flatten() {
        file.extend(word.to_le_bytes());
    }
    file
}
