//! Damaged files and tables: every byte cut, every byte changed, in some to each of its 256 values.

use super::make::*;
use super::papers::{RUNNING, SUITE};
use super::Part;
use crate::batch::Batch;
use crate::case::{LIST, PAGE, SHEET};
use crate::random::Random;
use crate::reference::formula::bytes_of;
use crate::reference::suite::write;

const LENT: usize = 400;

/// Asks the three operations in turn; the page oftener, since it says what was refused and where.
fn ask(batch: &mut Batch, random: &mut Random, file: &[u8]) {
    let operation = random.pick(&[SHEET, PAGE, PAGE, LIST]);
    let which = if operation == LIST { random.below(3) } else { 0 };
    batch.add(of_file(operation, file, which, LENT));
}

pub fn files(batch: &mut Batch, random: &mut Random, part: &Part) {
    for place in (0..SUITE.len()).filter(|&place| part.has(place)) {
        for value in (0..=255).step_by(part.pick(3, 1)) {
            let mut file = SUITE;
            file[place] = value;
            ask(batch, random, &file);
        }
    }
    for _ in 0..part.pick(5, 9) {
        let file = write(&suite(random, Most { conditions: 4, requirements: 3, rows: 6, runs: 3, steps: 4 }));
        every_cut(batch, random, &file);
        every_byte(batch, random, &file);
        two_bytes(batch, random, &file);
    }
}

/// Every length from nothing to somewhat more than the file.
fn every_cut(batch: &mut Batch, random: &mut Random, file: &[u8]) {
    for length in 0..file.len() + 5 {
        let mut cut = file.to_vec();
        cut.resize(length, random.byte());
        ask(batch, random, &cut);
    }
    for from in 0..file.len() {
        let gap = [&file[..from], &file[from + 1..]].concat();
        ask(batch, random, &gap);
    }
}

fn every_byte(batch: &mut Batch, random: &mut Random, file: &[u8]) {
    for place in 0..file.len() {
        let right = file[place];
        for value in [0, 255, right.wrapping_add(1), right.wrapping_sub(1), right ^ 0x80, random.byte()] {
            let mut damaged = file.to_vec();
            damaged[place] = value;
            ask(batch, random, &damaged);
        }
    }
}

fn two_bytes(batch: &mut Batch, random: &mut Random, file: &[u8]) {
    for _ in 0..2 * file.len() {
        let mut damaged = file.to_vec();
        for _ in 0..2 {
            let place = random.below(file.len());
            let any = random.byte();
            damaged[place] = random.pick(&[0, 1, 2, 3, 13, 255, damaged[place] ^ 1, any]);
        }
        ask(batch, random, &damaged);
    }
}

/// Truth, trap and witness of a table, each in its turn.
fn ask_table(batch: &mut Batch, random: &mut Random, table: &[u8]) {
    let run = [random.word() & 3, random.word() & 3, random.word() & 7];
    let steps = random.between(1, 3);
    let case = match random.below(3) {
        0 => truth(table, &run[..steps], 2),
        1 => trap(table, 2, random.below(3), 3 * 60),
        _ => witness(table, &run[..steps], 2, random.below(3), 3),
    };
    batch.add(case);
}

pub fn tables(batch: &mut Batch, random: &mut Random, part: &Part) {
    for number in 0..part.pick(3, 6) {
        let rows = random.between(3, 7);
        let table = if number == 0 && part.number == 0 { bytes_of(&RUNNING) } else { bytes_of(&requirement(random, rows, 2)) };
        for length in 0..table.len() + 4 {
            let mut cut = table.clone();
            cut.resize(length, random.byte());
            ask_table(batch, random, &cut);
        }
        for place in 0..table.len() {
            for value in 0..=255 {
                let mut damaged = table.clone();
                damaged[place] = value;
                ask_table(batch, random, &damaged);
            }
        }
        for _ in 0..1_000 {
            let mut damaged = table.clone();
            for _ in 0..2 {
                damaged[random.below(table.len())] = random.below(14) as u8;
            }
            ask_table(batch, random, &damaged);
        }
    }
}
