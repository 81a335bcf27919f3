//! What was compared, counted.

use std::collections::BTreeMap;

pub const OTHER_NUMBER: u32 = 100;
pub const PROGRAM_SHEET: u32 = 101;
pub const PROGRAM_TRAVEL: u32 = 102;
/// So many differences are printed in full.
pub const SHOWN: usize = 3;

#[derive(Default)]
pub struct Tally {
    pub compared: u64,
    pub differ: u64,
    kinds: BTreeMap<&'static str, u64>,
    /// Operation, answer, refusal's number.
    answers: BTreeMap<(u32, u32, u32), u64>,
    /// The job's number, and the difference in full.
    pub differences: Vec<(usize, String)>,
}

impl Tally {
    pub fn count(&mut self, kind: &'static str, operation: u32, answer: u32, refusal: u32) {
        *self.kinds.entry(kind).or_default() += 1;
        *self.answers.entry((operation, answer, refusal)).or_default() += 1;
    }

    pub fn differs(&mut self, job: usize, text: impl FnOnce() -> String) {
        self.differ += 1;
        if self.differences.len() < SHOWN {
            self.differences.push((job, text()));
        }
    }

    pub fn add(&mut self, other: Tally) {
        self.compared += other.compared;
        self.differ += other.differ;
        for (kind, count) in other.kinds {
            *self.kinds.entry(kind).or_default() += count;
        }
        for (answer, count) in other.answers {
            *self.answers.entry(answer).or_default() += count;
        }
        self.differences.extend(other.differences);
        self.differences.sort_by_key(|difference| difference.0);
        self.differences.truncate(SHOWN);
    }

    pub fn print(&self) {
        println!("by kind of case:");
        for (kind, count) in &self.kinds {
            println!("  {count:>9}  {kind}");
        }
        println!("by operation and answer:");
        for ((operation, answer, refusal), count) in &self.answers {
            println!("  {count:>9}  {} {}", operation_name(*operation), answer_name(*answer, *refusal));
        }
        for (_, text) in &self.differences {
            println!("DIFFERS {text}");
        }
    }
}

fn operation_name(operation: u32) -> String {
    let names = ["truth", "trap", "witness", "list", "sheet", "page", "recorded run", "travel page"];
    match operation {
        PROGRAM_SHEET => "program sheet".into(),
        PROGRAM_TRAVEL => "program travel".into(),
        1..=8 => names[operation as usize - 1].into(),
        _ => "other number".into(),
    }
}

fn answer_name(answer: u32, refusal: u32) -> String {
    let names = ["refused", "holds", "fails", "written", "covered", "uncovered", "no such operation"];
    let name = names.get(answer as usize).copied().unwrap_or("?");
    if answer == 0 {
        format!("{name} {refusal}")
    } else {
        name.into()
    }
}
