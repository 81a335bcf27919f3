//! The Rust interface on document 01's 52-byte suite (its sheet, its covered pairs, a witness), an encoder log made into a run, and
//! refusals with their places.
use occov::*;
use std::io::Write;

const SUITE: [u8; 52] = [
    1, 2, 1, 2, 0x10, 0, 4, 0, 0x1C, 0, 3, 0, 0x28, 0, 3, 0, // 2 conditions, 1 requirement, 2 runs; where each body starts
    2, 0, 0, 2, 1, 0, 5, 0, 1, 10, 2, 0, // finally (0 or 1)
    0, 0, 0, 0, 1, 0, 0, 0, 2, 0, 0, 0, // run 0: {} {0} {1}
    0, 0, 0, 0, 1, 0, 0, 0, 0, 0, 0, 0, // run 1: {} {0} {}
];
const REQUIREMENT: [u8; 12] = [2, 0, 0, 2, 1, 0, 5, 0, 1, 10, 2, 0];
const RUNS: [[u32; 3]; 2] = [[0, 1, 2], [0, 1, 0]];
const TWO: ConditionCount = ConditionCount(2);
// encoder counts 65000, 65300, 64, 364, 364, 65400, 64700; the limits too are encoder counts
const LIFT: [u8; 14] = [0xE8, 0xFD, 0x14, 0xFF, 0x40, 0, 0x6C, 1, 0x6C, 1, 0x78, 0xFF, 0xBC, 0xFC];
const LIMITS: [Limit; 2] = [Limit(300), Limit(800)];

fn listed(kind: &str, unit: &str, all: &[impl std::fmt::Display]) -> String {
    let each: String = all.iter().map(|one| format!(" {one}")).collect();
    format!("{kind}, {} {unit}:{each}", all.len())
}

fn say(what: &str, answer: Result<String, Refusal>) {
    println!("{what}: {}", answer.unwrap_or_else(|refusal| refusal.to_string()));
}

fn verdict(table: &[u8], run: &[u32]) -> Result<String, Refusal> {
    truth(table, run, TWO).map(|v| if v == Verdict::Holds { "holds" } else { "fails" }.into())
}

fn pairs(requirement: RequirementNumber) -> Result<String, Refusal> {
    let mut out = [0; LIST.0];
    let bytes = |p: Pair| [p.occurrence.0 as u8, p.run.0 as u8];
    list(&SUITE, requirement, &mut out).map(|all| listed("written", "bytes", &all.flat_map(bytes).collect::<Vec<u8>>()))
}

fn main() -> Result<(), Refusal> {
    let mut text = vec![0; SHEET.0];
    let mut out = [0; WITNESS.0];
    std::io::stdout().write_all(sheet(&SUITE, &mut text)?).expect("standard output takes the sheet");
    say("pairs of requirement 0", pairs(RequirementNumber(0)));
    say("pairs of requirement 1", pairs(RequirementNumber(1)));
    for (j, run) in RUNS.iter().enumerate() {
        say(&format!("run {j} truth"), verdict(&REQUIREMENT, run));
        for o in 0..2 {
            let answer = witness(&REQUIREMENT, run, TWO, OccurrenceNumber(o), &mut out).map(|coverage| match coverage {
                Coverage::Covered(bytes) => listed("covered", "bytes", bytes),
                Coverage::Uncovered => "uncovered".into(),
            });
            say(&format!("run {j} occurrence {o} witness"), answer);
        }
    }
    say("trap", trap(&REQUIREMENT, TWO, OccurrenceNumber(0), &mut out).map(|bytes| listed("written", "bytes", bytes)));

    let mut words = [0; TAKEN.0];
    let run = take_in(&LIFT, &LIMITS, &mut words)?;
    say("log of the lift", Ok(listed("taken in", "steps", run)));
    say("truth of its run", verdict(&REQUIREMENT, run));

    let mut wrong = SUITE;
    wrong[47] = 128; // the highest bit of step 1 of run 1, in a suite of two conditions
    let empty = |_: &[u8]| String::new();
    say("file with a stray bit", sheet(&wrong, &mut text).map(empty));
    say("run with a stray bit", verdict(&REQUIREMENT, &[0, 4, 0]));
    say("row 1 of an unknown kind", verdict(&[2, 0, 0, 13, 0, 0], &RUNS[0]));
    say("file cut short", sheet(&SUITE[..51], &mut text).map(empty));
    say("no room for the sheet", sheet(&SUITE, &mut out[..10]).map(empty));
    say("log of half a turn", take_in(&[0, 0, 0, 128], &LIMITS, &mut words).map(|run| listed("taken in", "steps", run)));
    Ok(())
}
