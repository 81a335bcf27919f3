//! Checks the program `answers` (and `sheet` and `travel` beside it) against a reference written from document 01 alone.

mod batch;
mod case;
mod cases;
mod program;
mod random;
mod reference;
mod selfcheck;
mod store;
mod tally;

use batch::Batch;
use cases::{Part, KINDS};
use program::Programs;
use random::Random;
use std::process::ExitCode;
use std::sync::atomic::{AtomicUsize, Ordering};
use std::sync::Mutex;
use std::time::Instant;
use tally::Tally;

const USAGE: &str = "outside PROGRAM short|full [seed=N] [RUNNER WORDS..]\noutside FOLDER store";
const CANNOT_RUN: u8 = 2;
const DIFFERS: u8 = 1;

fn main() -> ExitCode {
    let words: Vec<String> = std::env::args().skip(1).collect();
    let done = match words.get(1).map(String::as_str) {
        Some("store") => store::store(&words[0]).map(|_| 0),
        Some(size @ ("short" | "full")) => {
            let seed = words.get(2).and_then(|word| word.strip_prefix("seed=")).map(str::parse::<u64>);
            let runner = &words[if seed.is_some() { 3 } else { 2 }..];
            match seed.unwrap_or(Ok(1)) {
                Ok(seed) => Programs::new(&words[0], runner).and_then(|programs| compare(&programs, size == "full", seed)),
                Err(error) => Err(format!("seed: {error}")),
            }
        }
        _ => Err(USAGE.to_string()),
    };
    done.map_or_else(
        |error| {
            eprintln!("{error}");
            ExitCode::from(CANNOT_RUN)
        },
        ExitCode::from,
    )
}

/// All jobs, on as many threads as there are processors.
fn compare(programs: &Programs, full: bool, seed: u64) -> Result<u8, String> {
    let start = Instant::now();
    let jobs: Vec<(usize, Part)> = KINDS.iter().enumerate().flat_map(|(kind, of)| of.parts(full).map(move |part| (kind, part))).collect();
    let (next, total, failure) = (AtomicUsize::new(0), Mutex::new(Tally::default()), Mutex::new(None));
    let work = || {
        while let Some((job, (kind, part))) = Some(next.fetch_add(1, Ordering::Relaxed)).and_then(|job| Some((job, jobs.get(job)?))) {
            let kind = &KINDS[*kind];
            let mut batch = Batch::new(Some(programs), job, kind.name);
            (kind.make)(&mut batch, &mut Random::new(seed, kind.name, part.number), part);
            batch.run();
            if let Ok(mut total) = total.lock() {
                total.add(batch.tally);
            }
            if let (Some(why), Ok(mut failure)) = (batch.failure, failure.lock()) {
                *failure = Some(why);
                return;
            }
        }
    };
    let processors = std::thread::available_parallelism().map_or(1, usize::from);
    std::thread::scope(|scope| (0..processors).for_each(|_| drop(scope.spawn(work))));
    if let Ok(Some(why)) = failure.into_inner() {
        return Err(why);
    }
    let total = total.into_inner().map_err(|error| error.to_string())?;
    total.print();
    let failed = selfcheck::print();
    println!("seed {seed}, {} s: {} compared, {} differ", start.elapsed().as_secs(), total.compared, total.differ);
    Ok(if total.differ > 0 || failed > 0 { DIFFERS } else { 0 })
}
