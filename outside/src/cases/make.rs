//! Making cases, tables, runs and suites.

use crate::case::*;
use crate::random::Random;
use crate::reference::formula::*;
use crate::reference::suite::Suite;

pub const UNARY: [u8; 4] = [STRONG_NEXT, WEAK_NEXT, FINALLY, GLOBALLY];
pub const BINARY: [u8; 5] = [AND, OR, UNTIL, RELEASE, WEAK_UNTIL];

pub fn run_bytes(run: &[u32]) -> Vec<u8> {
    run.iter().flat_map(|word| word.to_le_bytes()).collect()
}

pub fn truth(table: &[u8], run: &[u32], conditions: usize) -> Case {
    Case { operation: TRUTH, table: table.to_vec(), more: run_bytes(run), conditions: conditions as u32, ..Case::default() }
}

pub fn trap(table: &[u8], conditions: usize, which: usize, lent: usize) -> Case {
    let (conditions, which) = (conditions as u32, which as u32);
    Case { operation: TRAP, table: table.to_vec(), conditions, which, lent, ..Case::default() }
}

pub fn witness(table: &[u8], run: &[u32], conditions: usize, which: usize, lent: usize) -> Case {
    Case { operation: WITNESS, which: which as u32, lent, ..truth(table, run, conditions) }
}

/// List, sheet or page.
pub fn of_file(operation: u32, file: &[u8], which: usize, lent: usize) -> Case {
    Case { operation, table: file.to_vec(), which: which as u32, lent, ..Case::default() }
}

pub fn recorded(log: &[u8], limits: &[i32], lent: usize) -> Case {
    let more = limits.iter().flat_map(|limit| limit.to_le_bytes()).collect();
    Case { operation: RECORDED, table: log.to_vec(), more, lent, ..Case::default() }
}

/// Rows that are not yet named; a requirement ends with one.
struct Growing {
    rows: Vec<Row>,
    open: Vec<usize>,
}

impl Growing {
    fn take(&mut self, random: &mut Random) -> u8 {
        let place = random.below(self.open.len());
        self.open.swap_remove(place) as u8
    }

    fn put(&mut self, row: Row) {
        self.open.push(self.rows.len());
        self.rows.push(row);
    }

    fn unary(&mut self, random: &mut Random) {
        let child = self.take(random);
        let may_be_not = self.rows[usize::from(child)][0] == CONDITION && random.once_in(3);
        let kind = if may_be_not { NOT } else { random.pick(&UNARY) };
        self.put([kind, child, 0]);
    }
}

fn leaf(random: &mut Random, conditions: usize) -> Row {
    if random.once_in(12) {
        [random.pick(&[FALSE, TRUE]), 0, 0]
    } else {
        [CONDITION, random.below(conditions) as u8, 0]
    }
}

/// A requirement of exactly so many rows. Bushy ones have many leaves, others long ways.
pub fn requirement(random: &mut Random, rows: usize, conditions: usize) -> Vec<Row> {
    let bushy = random.between(1, 6);
    let mut growing = Growing { rows: Vec::new(), open: Vec::new() };
    for left in (0..rows).rev() {
        let open = growing.open.len();
        // After this row the open ones must still be joined, one less a row, in the rows left.
        let must_join = open > left + 1;
        if must_join || open > 1 && random.once_in(2) {
            let (first, second) = (growing.take(random), growing.take(random));
            growing.put([random.pick(&BINARY), first, second]);
        } else if open == 0 || open <= left && random.below(8) < bushy {
            growing.put(leaf(random, conditions));
        } else {
            growing.unary(random);
        }
    }
    growing.rows
}

/// Any formula table: rows may be named many times or never.
pub fn table(random: &mut Random, rows: usize, conditions: usize) -> Vec<Row> {
    let near = random.once_in(2);
    let mut table: Vec<Row> = Vec::with_capacity(rows);
    for number in 0..rows {
        let lower = |random: &mut Random| {
            let back = if near { 1 + random.below(number.min(4)) } else { 1 + random.below(number) };
            (number - back) as u8
        };
        let row = match random.below(10) {
            _ if number == 0 => leaf(random, conditions),
            0..=1 => leaf(random, conditions),
            2 => [NOT, lower(random), 0],
            3..=4 => [random.pick(&UNARY), lower(random), 0],
            _ => [random.pick(&BINARY), lower(random), lower(random)],
        };
        table.push(row);
    }
    table
}

/// A run whose bits are rare, common, mostly true, in long stretches, or the same at all but a few steps.
pub fn run(random: &mut Random, steps: usize, conditions: usize) -> Vec<u32> {
    let mask = u32::MAX >> (32 - conditions);
    let manner = random.below(8);
    let mut word = random.word();
    let mut step = || {
        let rare = random.word() & random.word() & random.word();
        word = match manner {
            0 | 1 => random.word(),
            2 => rare & random.word(),
            3 => !(rare & random.word()),
            4 => word ^ (rare & random.word()),
            5 => rare,
            _ => word,
        };
        word & mask
    };
    let mut run: Vec<u32> = (0..steps).map(|_| step()).collect();
    let changes = if steps == 0 { 0 } else { random.below(4) };
    for _ in 0..changes {
        // At the ends as well as anywhere.
        let anywhere = random.below(steps);
        run[random.pick(&[0, steps - 1, anywhere, anywhere])] = random.word() & mask;
    }
    run
}

/// The most of each thing in a made suite.
#[derive(Clone, Copy)]
pub struct Most {
    pub conditions: usize,
    pub requirements: usize,
    pub rows: usize,
    pub runs: usize,
    pub steps: usize,
}

pub fn suite(random: &mut Random, most: Most) -> Suite {
    let conditions = random.between(1, most.conditions);
    let (requirements, runs) = (random.between(1, most.requirements), random.between(1, most.runs));
    let mut suite = Suite { conditions, requirements: Vec::new(), runs: Vec::new() };
    for _ in 0..requirements {
        let rows = random.between(1, most.rows);
        suite.requirements.push(requirement(random, rows, conditions));
    }
    for _ in 0..runs {
        let steps = random.between(1, most.steps);
        suite.runs.push(run(random, steps, conditions));
    }
    suite
}
