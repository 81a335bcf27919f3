//! Whole files for the programs `sheet` and `travel`.

use super::great::{filled_suite, fullest_suite, largest_suite};
use super::logs::log;
use super::make::{suite, Most};
use super::papers::SUITE;
use super::Part;
use crate::batch::Batch;
use crate::random::Random;
use crate::reference::limits::{FILE_MOST, STEPS_MOST};
use crate::reference::suite as file;

pub fn files(batch: &mut Batch, random: &mut Random, part: &Part) {
    if part.number == 0 {
        let fixed: [&[u8]; 3] = [&SUITE, &[], &[1, 1, 1]];
        fixed.iter().for_each(|bytes| batch.sheet_program(bytes));
        batch.sheet_program(&filled_suite(FILE_MOST));
        batch.sheet_program(&filled_suite(FILE_MOST + 1));
        batch.sheet_program(&largest_suite());
        batch.sheet_program(&fullest_suite());
        batch.sheet_program(&vec![1; 3 * FILE_MOST]);
    }
    for number in 0..part.pick(60, 150) {
        let most = Most { conditions: 6, requirements: 5, rows: 12, runs: 6, steps: 9 };
        let mut bytes = file::write(&suite(random, most));
        match number % 5 {
            3 => bytes.truncate(random.below(bytes.len() + 1)),
            4 => {
                let place = random.below(bytes.len());
                bytes[place] = random.byte();
            }
            _ => {}
        }
        batch.sheet_program(&bytes);
    }
}

pub fn logs(batch: &mut Batch, random: &mut Random, part: &Part) {
    for number in 0..part.pick(60, 100) {
        let steps = match number {
            0..=3 => STEPS_MOST + number - 2,
            4 => 0,
            _ => random.below(40),
        };
        let mut bytes = log(random, steps);
        if random.once_in(10) {
            bytes.push(random.byte());
        }
        batch.travel_program(&bytes);
    }
    if part.number == 0 {
        batch.travel_program(&vec![7; 10 * STEPS_MOST]);
    }
}
