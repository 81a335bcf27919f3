//! A case for the program `answers`, and what the reference says to it, in the bytes of the protocol.

use crate::reference::{cover, formula, limits, log, sheet, suite, trap, truth};
use crate::reference::{refusal, Place, Refusal};
use crate::selfcheck::{check, Check};

pub const TRUTH: u32 = 1;
pub const TRAP: u32 = 2;
pub const WITNESS: u32 = 3;
pub const LIST: u32 = 4;
pub const SHEET: u32 = 5;
pub const PAGE: u32 = 6;
pub const RECORDED: u32 = 7;
pub const TRAVEL: u32 = 8;

/// A lent word of a recorded run.
pub const WORD_BYTES: usize = 4;
pub const ANSWER_HEAD_BYTES: usize = 16;

#[derive(Clone, Debug, Default)]
pub struct Case {
    pub operation: u32,
    pub fill: u8,
    /// The table, the file or the log.
    pub table: Vec<u8>,
    /// The run or the limits.
    pub more: Vec<u8>,
    pub conditions: u32,
    pub which: u32,
    pub lent: usize,
}

pub enum Answer {
    Refused(Refusal),
    Holds,
    Fails,
    Written(Vec<u8>),
    Covered(Vec<u8>),
    Uncovered,
    NoSuchOperation,
}

impl Case {
    /// The bytes on standard input.
    pub fn put(&self, input: &mut Vec<u8>) {
        let follow = self.table.len() + self.more.len();
        let (operation, fill) = (self.operation, u32::from(self.fill));
        for number in [operation, fill, follow as u32, self.table.len() as u32, self.conditions, self.which, self.lent as u32] {
            input.extend(number.to_le_bytes());
        }
        input.extend(&self.table);
        input.extend(&self.more);
    }

    pub fn answer(&self) -> Answer {
        let answer = match self.operation {
            TRUTH => self.truth(),
            TRAP => self.trap(),
            WITNESS => self.witness(),
            LIST => self.list(),
            SHEET => suite::read(&self.table).and_then(|suite| self.written(sheet::text(&suite).into_bytes())),
            PAGE => self.written(sheet::page(&self.table).into_bytes()),
            RECORDED => self.recorded(),
            TRAVEL => self.written(log::page(&self.table).into_bytes()),
            _ => Ok(Answer::NoSuchOperation),
        };
        answer.unwrap_or_else(Answer::Refused)
    }

    fn written(&self, bytes: Vec<u8>) -> Result<Answer, Refusal> {
        if bytes.len() > self.lent {
            return Err(refusal(14));
        }
        Ok(Answer::Written(bytes))
    }

    fn truth(&self) -> Result<Answer, Refusal> {
        let (conditions, run) = (self.conditions as usize, truth::words(&self.more));
        let rows = formula::lone_table(&self.table, conditions)?;
        truth::lone_run(&run, conditions)?;
        Ok(if truth::holds(&rows, &run) { Answer::Holds } else { Answer::Fails })
    }

    fn trap(&self) -> Result<Answer, Refusal> {
        let rows = formula::lone_requirement(&self.table, self.conditions as usize)?;
        let row = formula::occurrence_row(&rows, self.which as usize)?;
        let table = trap::table(&rows, row);
        if table.len() > limits::TABLE_ROWS_MOST {
            return Err(refusal(13));
        }
        self.written(formula::bytes_of(&table))
    }

    fn witness(&self) -> Result<Answer, Refusal> {
        let (conditions, run) = (self.conditions as usize, truth::words(&self.more));
        let rows = formula::lone_requirement(&self.table, conditions)?;
        truth::lone_run(&run, conditions)?;
        let row = formula::occurrence_row(&rows, self.which as usize)?;
        let covered = cover::covered(&rows, &run, &truth::lines(&rows, &run), row);
        cover::check_theorems(&rows, &run, row, covered);
        if !covered {
            return Ok(Answer::Uncovered);
        }
        if self.lent < run.len() {
            return Err(refusal(14));
        }
        Ok(Answer::Covered(cover::witness(&rows, row, run.len())))
    }

    fn list(&self) -> Result<Answer, Refusal> {
        let (bytes, needed) = sheet::list(&self.table, self.which as usize)?;
        if self.lent < needed {
            return Err(refusal(14));
        }
        Ok(Answer::Written(bytes))
    }

    fn recorded(&self) -> Result<Answer, Refusal> {
        let limits: Vec<i32> = truth::words(&self.more).into_iter().map(|word| word as i32).collect();
        let run = log::recorded_run(&self.table, &limits, self.lent / WORD_BYTES)?;
        let right = truth::lone_run(&run, limits.len()) == Ok(()) && run.len() * 2 == self.table.len();
        check(Check::RecordedRunIsRun, right, || format!("{self:?}"));
        Ok(Answer::Written(run.iter().flat_map(|word| word.to_le_bytes()).collect()))
    }

    /// The bytes on standard output: the head and all lent bytes.
    pub fn put_answer(&self, answer: &Answer, output: &mut Vec<u8>) {
        let unit = if self.operation == RECORDED { WORD_BYTES } else { 1 };
        let (number, kind, place) = match answer {
            Answer::Refused(refusal) => (refusal.number as usize, place_kind(refusal.place), refusal.place.number()),
            _ => (answer.bytes().len() / unit, 0, 0),
        };
        for head in [answer.code(), number as u32, kind, place as u32] {
            output.extend(head.to_le_bytes());
        }
        let lent = output.len();
        output.resize(lent + self.lent, self.fill);
        let bytes = answer.bytes();
        output[lent..lent + bytes.len()].copy_from_slice(bytes);
    }
}

impl Answer {
    pub fn code(&self) -> u32 {
        match self {
            Answer::Refused(_) => 0,
            Answer::Holds => 1,
            Answer::Fails => 2,
            Answer::Written(_) => 3,
            Answer::Covered(_) => 4,
            Answer::Uncovered => 5,
            Answer::NoSuchOperation => 6,
        }
    }

    fn bytes(&self) -> &[u8] {
        match self {
            Answer::Written(bytes) | Answer::Covered(bytes) => bytes,
            _ => &[],
        }
    }
}

fn place_kind(place: Place) -> u32 {
    match place {
        Place::None => 0,
        Place::Byte(_) => 1,
        Place::Row(_) => 2,
        Place::Step(_) => 3,
    }
}
