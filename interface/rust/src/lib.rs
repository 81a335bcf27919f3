//! Occurrence coverage over bench runs, for Rust: the proved operations of the archive `libexports.a` (`bin/build-proved exports`).
//!
//! Each function is safe: a slice brings its own length, and what the archive asks of a caller (include/occov.h) is what Rust's
//! references guarantee, but for the stack, which must have room: 512 KiB for [`sheet`], 64 KiB for the others.
//! Figures have types that say what they count. Every number is taken, and a wrong one is refused by its number in document 01
//! (17, of a log, in document 02).

#[cfg(not(all(target_arch = "x86_64", target_os = "linux")))]
compile_error!("libexports.a is for x86-64 Linux");

macro_rules! figures {
    ($($(#[$said:meta])* $name:ident)*) => {$(
        $(#[$said])*
        #[repr(transparent)]
        #[derive(Clone, Copy, Debug, PartialEq, Eq, PartialOrd, Ord)]
        pub struct $name(pub usize);
    )*};
}

figures! {
    /// Conditions of the suite, or limits, one a condition; any; 1 to 32 are accepted, else refusal 3.
    ConditionCount
    /// Which condition row of the requirement, ascending, from 0; any; one that the requirement does not have is refusal 12.
    OccurrenceNumber
    /// Which requirement of the suite, from 0; any; one that the suite does not have is refusal 12.
    RequirementNumber
    /// Which run of the suite, from 0: 0 to 63.
    RunNumber
    /// Which line of document 01's table of refusals, 1 to 14, or 17, of a log.
    RefusalNumber
    /// Bytes of the suite file before the entry, row or word meant: 0 to 65,534.
    ByteOffset
    /// Which row of the lone table, from 0: 0 to 223.
    RowNumber
    /// Which step of the lone run or of the log, from 0: 0 to 4,095.
    StepNumber
    /// Bytes of a table, of a file, of a log, or written.
    ByteCount
    /// Steps of a run, one 32-bit word each.
    StepCount
}

/// What a condition of a log reads: it holds at a step where the lift has gone at least so far since step 0, negative for back.
/// Encoder counts, never millimetres or inches; any.
#[repr(transparent)]
#[derive(Clone, Copy, Debug, PartialEq, Eq, PartialOrd, Ord)]
pub struct Limit(pub i32);

/// The most bytes, or steps, that each operation writes: a lent slice of that length is never too short.
pub const TRAP: ByteCount = ByteCount(672);
pub const WITNESS: ByteCount = ByteCount(4096);
pub const LIST: ByteCount = ByteCount(2048);
pub const SHEET: ByteCount = ByteCount(426_842);
pub const TAKEN: StepCount = StepCount(4096);

/// Where a refusal points.
#[derive(Clone, Copy, Debug, PartialEq, Eq)]
pub enum Place {
    None,
    Byte(ByteOffset),
    Row(RowNumber),
    Step(StepNumber),
}

/// A refusal. No lent byte or word has changed.
#[derive(Clone, Copy, Debug, PartialEq, Eq)]
pub struct Refusal {
    pub number: RefusalNumber,
    pub place: Place,
}

impl std::fmt::Display for Refusal {
    fn fmt(&self, f: &mut std::fmt::Formatter) -> std::fmt::Result {
        write!(f, "refused by {}", self.number.0)?;
        match self.place {
            Place::None => Ok(()),
            Place::Byte(at) => write!(f, " at byte {}", at.0),
            Place::Row(at) => write!(f, " at row {}", at.0),
            Place::Step(at) => write!(f, " at step {}", at.0),
        }
    }
}

impl std::error::Error for Refusal {}

#[derive(Clone, Copy, Debug, PartialEq, Eq)]
pub enum Verdict {
    Holds,
    Fails,
}

/// Whether a run covers an occurrence, with the witness: a byte a step, 0 or 1 each.
#[derive(Clone, Copy, Debug, PartialEq, Eq)]
pub enum Coverage<'a> {
    Covered(&'a [u8]),
    Uncovered,
}

/// A covered pair.
#[derive(Clone, Copy, Debug, PartialEq, Eq)]
pub struct Pair {
    pub occurrence: OccurrenceNumber,
    pub run: RunNumber,
}

/// The answer as it crosses: `occov_answer` of include/occov.h.
#[repr(C)]
struct Answer {
    kind: u32,
    unit: u32,
    refusal: RefusalNumber,
    place: usize,
    written: ByteCount,
    steps: StepCount,
}

// A slice crosses as a pointer and a count; a struct of one number crosses as that number.
#[rustfmt::skip]
#[link(name = "exports", kind = "static")]
extern "C" {
    fn occov_truth(table: *const u8, table_bytes: ByteCount, run: *const u32, run_steps: StepCount, conditions: ConditionCount) -> Answer;
    fn occov_trap(requirement: *const u8, requirement_bytes: ByteCount, conditions: ConditionCount, occurrence: OccurrenceNumber,
        out: *mut u8, out_bytes: ByteCount) -> Answer;
    fn occov_witness(requirement: *const u8, requirement_bytes: ByteCount, run: *const u32, run_steps: StepCount,
        conditions: ConditionCount, occurrence: OccurrenceNumber, out: *mut u8, out_bytes: ByteCount) -> Answer;
    fn occov_list(file: *const u8, file_bytes: ByteCount, requirement: RequirementNumber, out: *mut u8, out_bytes: ByteCount) -> Answer;
    fn occov_sheet(file: *const u8, file_bytes: ByteCount, out: *mut u8, out_bytes: ByteCount) -> Answer;
    fn occov_take_in(log: *const u8, log_bytes: ByteCount, limits: *const Limit, conditions: ConditionCount, out: *mut u32,
        out_steps: StepCount) -> Answer;
}

// Kinds of an answer, and what its place is a number of.
const REFUSED: u32 = 0;
const HOLDS: u32 = 1;
const FAILS: u32 = 2;
const WRITTEN: u32 = 3;
const COVERED: u32 = 4;
const UNCOVERED: u32 = 5;
const TAKEN_IN: u32 = 6;
const BYTE: u32 = 1;
const ROW: u32 = 2;
const STEP: u32 = 3;

fn bytes(s: &[u8]) -> ByteCount {
    ByteCount(s.len())
}

fn steps(run: &[u32]) -> StepCount {
    StepCount(run.len())
}

impl Answer {
    /// The kind of an answer that is no refusal.
    fn given(&self) -> Result<u32, Refusal> {
        if self.kind != REFUSED {
            return Ok(self.kind);
        }
        let place = match self.unit {
            BYTE => Place::Byte(ByteOffset(self.place)),
            ROW => Place::Row(RowNumber(self.place)),
            STEP => Place::Step(StepNumber(self.place)),
            _ => Place::None,
        };
        Err(Refusal { number: self.refusal, place })
    }

    /// The bytes that were written, of an operation whose answers are written or refused.
    fn written<'a>(&self, out: &'a [u8]) -> Result<&'a [u8], Refusal> {
        match self.given()? {
            WRITTEN => Ok(&out[..self.written.0]),
            other => unpromised(other),
        }
    }
}

/// A kind that the operation is proved never to answer.
fn unpromised(kind: u32) -> ! {
    unreachable!("an answer of kind {kind}: another archive than the one of this interface")
}

/// Whether a lone formula table, three bytes a row, holds of a lone run, a word a step. Refused by 3, 7, 8, 10 or 11.
pub fn truth(table: &[u8], run: &[u32], conditions: ConditionCount) -> Result<Verdict, Refusal> {
    let answer = unsafe { occov_truth(table.as_ptr(), bytes(table), run.as_ptr(), steps(run), conditions) };
    match answer.given()? {
        HOLDS => Ok(Verdict::Holds),
        FAILS => Ok(Verdict::Fails),
        other => unpromised(other),
    }
}

/// The trap table of an occurrence of a lone requirement, three bytes a row. Refused by 3, 7, 8, 9, 12, 13 or 14.
pub fn trap<'a>(
    requirement: &[u8],
    conditions: ConditionCount,
    occurrence: OccurrenceNumber,
    out: &'a mut [u8],
) -> Result<&'a [u8], Refusal> {
    let (q, room) = (requirement, bytes(out));
    let answer = unsafe { occov_trap(q.as_ptr(), bytes(q), conditions, occurrence, out.as_mut_ptr(), room) };
    answer.written(out)
}

/// Whether a lone run covers an occurrence of a lone requirement. Refused by 3, 7 to 12 or 14.
pub fn witness<'a>(
    requirement: &[u8],
    run: &[u32],
    conditions: ConditionCount,
    occurrence: OccurrenceNumber,
    out: &'a mut [u8],
) -> Result<Coverage<'a>, Refusal> {
    let (q, room, lent) = (requirement, bytes(out), out.as_mut_ptr());
    let answer = unsafe { occov_witness(q.as_ptr(), bytes(q), run.as_ptr(), steps(run), conditions, occurrence, lent, room) };
    match answer.given()? {
        COVERED => Ok(Coverage::Covered(&out[..answer.written.0])),
        UNCOVERED => Ok(Coverage::Uncovered),
        other => unpromised(other),
    }
}

/// The covered pairs of a requirement of a suite file. Refused by 1 to 6, 8, 9, 11, 12 or 14, which asks for two bytes a pair.
pub fn list<'a>(file: &[u8], requirement: RequirementNumber, out: &'a mut [u8]) -> Result<impl Iterator<Item = Pair> + 'a, Refusal> {
    let room = bytes(out);
    let answer = unsafe { occov_list(file.as_ptr(), bytes(file), requirement, out.as_mut_ptr(), room) };
    let pair = |p: &[u8]| Pair { occurrence: OccurrenceNumber(p[0].into()), run: RunNumber(p[1].into()) };
    Ok(answer.written(out)?.chunks_exact(2).map(pair))
}

/// The bench sheet of a suite file, lines of text that end with a line feed. Refused by 1 to 6, 8, 9, 11 or 14.
pub fn sheet<'a>(file: &[u8], out: &'a mut [u8]) -> Result<&'a [u8], Refusal> {
    let room = bytes(out);
    let answer = unsafe { occov_sheet(file.as_ptr(), bytes(file), out.as_mut_ptr(), room) };
    answer.written(out)
}

/// The lone run of an encoder log, a word a step, bit c is condition c; the part of `out` that it fills. The log is two bytes a step,
/// little-endian: the encoder's count, which wraps after 65,535. Refused by 3, 10, 17 (a difference of exactly 32,768, at the later
/// step) or 14, in that order.
pub fn take_in<'a>(log: &[u8], limits: &[Limit], out: &'a mut [u32]) -> Result<&'a [u32], Refusal> {
    let (conditions, room) = (ConditionCount(limits.len()), steps(out));
    let answer = unsafe { occov_take_in(log.as_ptr(), bytes(log), limits.as_ptr(), conditions, out.as_mut_ptr(), room) };
    match answer.given()? {
        TAKEN_IN => Ok(&out[..answer.steps.0]),
        other => unpromised(other),
    }
}
