//! Cases gathered until they are some megabytes, then given to the program and compared byte by byte.

use crate::case::{Answer, Case, ANSWER_HEAD_BYTES, RECORDED, TRAVEL, TRUTH, WORD_BYTES};
use crate::program::{Program, Programs};
use crate::reference::{log, sheet};
use crate::tally::{Tally, OTHER_NUMBER, PROGRAM_SHEET, PROGRAM_TRAVEL};

const BATCH_BYTES: usize = 4_000_000;

/// The room of the program `answers`.
const INPUT_MOST: usize = 70_000;
const LENT_MOST: usize = 262_144;
const LENT_WORDS_MOST: usize = 4_200;

pub struct Batch<'a> {
    /// None: the cases are only gathered.
    programs: Option<&'a Programs>,
    job: usize,
    kind: &'static str,
    pub input: Vec<u8>,
    pub output: Vec<u8>,
    /// Where each case ends in the input and in the output.
    ends: Vec<(usize, usize)>,
    pub tally: Tally,
    /// Why the program could not be run.
    pub failure: Option<String>,
}

impl<'a> Batch<'a> {
    pub fn new(programs: Option<&'a Programs>, job: usize, kind: &'static str) -> Batch<'a> {
        let (input, output, ends) = (Vec::new(), Vec::new(), Vec::new());
        Batch { programs, job, kind, input, output, ends, tally: Tally::default(), failure: None }
    }

    /// Adds a case with a filling byte that changes from case to case.
    pub fn add(&mut self, mut case: Case) {
        let too_many_words = case.operation == RECORDED && case.lent / WORD_BYTES > LENT_WORDS_MOST;
        if case.table.len() + case.more.len() > INPUT_MOST || case.lent > LENT_MOST || too_many_words {
            self.failure = Some(format!("a case beyond the program's room: {} {}", case.operation, case.lent));
        }
        if self.failure.is_some() {
            return;
        }
        case.fill = (self.ends.len() * 37 + 11) as u8;
        let answer = case.answer();
        case.put(&mut self.input);
        case.put_answer(&answer, &mut self.output);
        self.ends.push((self.input.len(), self.output.len()));
        let number = if let Answer::Refused(refusal) = &answer { refusal.number } else { 0 };
        let operation = if (TRUTH..=TRAVEL).contains(&case.operation) { case.operation } else { OTHER_NUMBER };
        self.tally.count(self.kind, operation, answer.code(), number);
        if self.input.len() + self.output.len() > BATCH_BYTES {
            self.run();
        }
    }

    /// Runs what was gathered.
    pub fn run(&mut self) {
        let Some(programs) = self.programs else { return };
        if self.ends.is_empty() {
            return;
        }
        match programs.answers.run(&self.input) {
            Ok(got) => self.compare(&got),
            Err(error) => self.failure = Some(format!("answers: {error}")),
        }
        self.input.clear();
        self.output.clear();
        self.ends.clear();
    }

    fn compare(&mut self, got: &[u8]) {
        let mut from = (0, 0);
        for &to in &self.ends {
            let (case, expected) = (&self.input[from.0..to.0], &self.output[from.1..to.1]);
            let answer = &got[from.1.min(got.len())..to.1.min(got.len())];
            self.tally.compared += 1;
            if answer != expected {
                let kind = self.kind;
                self.tally.differs(self.job, || show(kind, case, expected, answer));
            }
            from = to;
        }
        if got.len() > self.output.len() {
            let more = got.len() - self.output.len();
            self.tally.differs(self.job, || format!("{}: {more} bytes more than the answers\n", self.kind));
        }
    }

    /// A whole file for the program `sheet`.
    pub fn sheet_program(&mut self, file: &[u8]) {
        let program = self.programs.map(|programs| programs.sheet.clone());
        self.text_program(program, PROGRAM_SHEET, file, sheet::page(file));
    }

    /// A whole log for the program `travel`.
    pub fn travel_program(&mut self, file: &[u8]) {
        let program = self.programs.and_then(|programs| programs.travel.clone());
        self.text_program(program, PROGRAM_TRAVEL, file, log::page(file));
    }

    fn text_program(&mut self, program: Option<Program>, operation: u32, file: &[u8], text: String) {
        let Some(program) = program else { return };
        let refused = text.strip_prefix("refused ").and_then(|rest| rest.split(' ').next()).and_then(|number| number.parse().ok());
        match program.run(file) {
            Ok(got) => {
                self.tally.count(self.kind, operation, if refused.is_some() { 0 } else { 3 }, refused.unwrap_or(0));
                self.tally.compared += 1;
                if got != text.as_bytes() {
                    let kind = self.kind;
                    self.tally.differs(self.job, || show(kind, file, text.as_bytes(), &got));
                }
            }
            Err(error) => self.failure = Some(error.to_string()),
        }
    }
}

fn hex(bytes: &[u8]) -> String {
    bytes.iter().map(|byte| format!("{byte:02X} ")).collect()
}

fn show(kind: &str, case: &[u8], expected: &[u8], got: &[u8]) -> String {
    let heads = |bytes: &[u8]| hex(&bytes[..bytes.len().min(ANSWER_HEAD_BYTES)]);
    let short = format!("head expected {}/ got {}", heads(expected), heads(got));
    format!("{kind}: {short}\ncase     {}\nexpected {}\ngot      {}\n", hex(case), hex(expected), hex(got))
}
