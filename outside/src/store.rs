//! Stored cases for the programs `worked` and `answers`, a batch in FOLDER/stdin with what the reference says of it in FOLDER/stdout: the
//! vectors that FOLDER/vectors/list.txt lists, and in words in FOLDER/vectors/answers.txt what comes out; without such a list document
//! 01's own examples.

use crate::batch::Batch;
use crate::case::*;
use crate::cases::papers;
use crate::reference::Place;
use std::fs;
use std::path::Path;

const OPERATIONS: [(&str, u32); 8] = [
    ("truth", TRUTH),
    ("trap", TRAP),
    ("witness", WITNESS),
    ("list", LIST),
    ("sheet", SHEET),
    ("page", PAGE),
    ("take_in", RECORDED),
    ("travel", TRAVEL),
];

/// Numbers parted by spaces; `v*n` is v, n times.
fn numbers(text: &str) -> Result<Vec<i64>, String> {
    let mut all = Vec::new();
    for item in text.split_whitespace() {
        let (value, times) = item.split_once('*').unwrap_or((item, "1"));
        let value: i64 = value.parse().map_err(|_| format!("no number: {item}"))?;
        all.resize(all.len() + number(times)?, value);
    }
    Ok(all)
}

fn number(text: &str) -> Result<usize, String> {
    text.parse().map_err(|_| format!("no number: {text}"))
}

/// The bytes of a table, suite or log: a file beside the list, or the numbers themselves.
fn bytes(folder: &Path, text: &str) -> Result<Vec<u8>, String> {
    match text.strip_prefix('@') {
        Some(name) => fs::read(folder.join(name)).map_err(|error| format!("{name}: {error}")),
        None => numbers(text)?.into_iter().map(|n| u8::try_from(n).map_err(|_| format!("no byte: {n}"))).collect(),
    }
}

/// A run's steps are unsigned and a log's limits signed; both are four bytes.
fn word(number: i64) -> [u8; WORD_BYTES] {
    (number as u32).to_le_bytes()
}

fn case(folder: &Path, fields: &[&str]) -> Result<Case, String> {
    let [_, operation, conditions, which, lent, table, more] = fields[..] else { return Err("seven fields are wanted".into()) };
    let (_, operation) = *OPERATIONS.iter().find(|of| of.0 == operation).ok_or(format!("no operation {operation}"))?;
    Ok(Case {
        operation,
        table: bytes(folder, table)?,
        more: numbers(more)?.into_iter().flat_map(word).collect(),
        conditions: number(conditions)? as u32,
        which: number(which)? as u32,
        lent: number(lent)?,
        ..Case::default()
    })
}

fn in_words(answer: &Answer) -> String {
    match answer {
        Answer::Refused(refusal) => match refusal.place {
            Place::None => format!("refused {}", refusal.number),
            Place::Byte(at) => format!("refused {}, byte {at}", refusal.number),
            Place::Row(at) => format!("refused {}, row {at}", refusal.number),
            Place::Step(at) => format!("refused {}, step {at}", refusal.number),
        },
        Answer::Holds => "holds".into(),
        Answer::Fails => "fails".into(),
        Answer::Written(bytes) => format!("written, {} bytes", bytes.len()),
        Answer::Covered(bytes) => format!("covered, {} bytes", bytes.len()),
        Answer::Uncovered => "uncovered".into(),
        Answer::NoSuchOperation => "no such operation".into(),
    }
}

/// The listed vectors, and what comes out in words.
fn listed(batch: &mut Batch, vectors: &Path, list: &str) -> Result<String, String> {
    let mut words = String::new();
    for line in list.lines().filter(|line| !line.is_empty() && !line.starts_with('#')) {
        let fields: Vec<&str> = line.split('|').map(str::trim).collect();
        let case = case(vectors, &fields).map_err(|why| format!("{}: {why}", fields[0]))?;
        words += &format!("{}, {}: {}\n", fields[0], fields[1], in_words(&case.answer()));
        batch.add(case);
    }
    Ok(words)
}

pub fn store(folder: &str) -> Result<(), String> {
    let (folder, vectors) = (Path::new(folder), Path::new(folder).join("vectors"));
    let put = |path: &Path, bytes: &[u8]| fs::write(path, bytes).map_err(|error| error.to_string());
    let mut batch = Batch::new(None, 0, "store");
    match fs::read_to_string(vectors.join("list.txt")) {
        Ok(list) => put(&vectors.join("answers.txt"), listed(&mut batch, &vectors, &list)?.as_bytes())?,
        Err(_) => papers::examples(&mut batch),
    }
    put(&folder.join("stdin"), &batch.input)?;
    put(&folder.join("stdout"), &batch.output)
}
