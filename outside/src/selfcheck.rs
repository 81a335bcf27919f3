//! What the reference checks about itself while it works, counted.

use std::sync::atomic::{AtomicU64, Ordering};
use std::sync::Mutex;

#[derive(Clone, Copy)]
pub enum Check {
    CountingIsQuantifiers,
    ColumnsAreSequences,
    DemandsAreSequences,
    ColumnsAreDemands,
    TrapIsCoverage,
    WitnessMakesFalse,
    TrapTableIsTable,
    SuiteWrittenAgain,
    MadeAsMeant,
    PaperSaysSo,
    RecordedRunIsRun,
    TravelIsCount,
}

const NAMES: [&str; 12] = [
    "truth by counting is truth by quantifiers",
    "coverage by columns is coverage by all sequences",
    "coverage by demands is coverage by all sequences",
    "coverage by columns is coverage by demands",
    "the trap table holds where the pair is covered",
    "the witness makes false where the pair is covered",
    "the trap table is a formula table within the limits",
    "an accepted suite written again is the same bytes",
    "a made table or suite is accepted",
    "the reference answers what the paper prints",
    "a recorded run is a lone run of as many steps",
    "the travel is the count up to whole turns",
];

static MADE: [AtomicU64; NAMES.len()] = [const { AtomicU64::new(0) }; NAMES.len()];
static FAILED: Mutex<Vec<String>> = Mutex::new(Vec::new());

pub fn check(which: Check, right: bool, what: impl FnOnce() -> String) {
    MADE[which as usize].fetch_add(1, Ordering::Relaxed);
    if !right {
        if let Ok(mut failed) = FAILED.lock() {
            failed.push(format!("{}: {}", NAMES[which as usize], what()));
        }
    }
}

/// Prints the counts and the first failures; says how many failed.
pub fn print() -> usize {
    let total: u64 = MADE.iter().map(|made| made.load(Ordering::Relaxed)).sum();
    println!("self checks of the reference: {total}");
    for (name, made) in NAMES.iter().zip(&MADE) {
        println!("  {:>9}  {name}", made.load(Ordering::Relaxed));
    }
    let failed = FAILED.lock().map(|failed| failed.clone()).unwrap_or_default();
    println!("self checks that failed: {}", failed.len());
    for text in failed.iter().take(3) {
        println!("  {text}");
    }
    failed.len()
}
