//! Coverage of a pair of occurrence and run.

use super::formula::{bytes_of, wrong_row, Row, NOT};
use super::limits::{CONDITIONS_MOST, TABLE_ROWS_MOST};
use super::truth::{holds, holds_with, Line};
use super::{columns, demands, trap};
use crate::selfcheck::{check, Check};

/// On runs up to this length all sequences are tried.
const SHORT: usize = 8;

/// Is the pair covered? The lines are those of the requirement over the run.
pub fn covered(rows: &[Row], run: &[u32], lines: &[Line], occurrence: usize) -> bool {
    if !lines[rows.len() - 1][0] {
        return false;
    }
    let demanded = demands::some_sequence_makes_false(rows, lines, occurrence);
    let columned = columns::some_sequence_makes_false(rows, lines, occurrence);
    let what = || format!("{rows:?} {run:?} row {occurrence}");
    if run.len() > SHORT {
        if let Some(found) = columned {
            check(Check::ColumnsAreDemands, found == demanded, what);
        }
        return columned.unwrap_or(demanded);
    }
    let tried = (0..1u32 << run.len()).any(|bits| !holds_with(rows, run, occurrence, &sequence(bits, run.len())));
    check(Check::DemandsAreSequences, tried == demanded, what);
    if let Some(found) = columned {
        check(Check::ColumnsAreSequences, tried == found, what);
    }
    tried
}

/// Bit k is the value at step k.
fn sequence(bits: u32, steps: usize) -> Vec<bool> {
    (0..steps).map(|k| bits >> k & 1 == 1).collect()
}

/// One byte a step: all 0 for a plain occurrence, all 1 for one under "not".
pub fn witness(rows: &[Row], occurrence: usize, steps: usize) -> Vec<u8> {
    let under_not = trap::way(rows, occurrence).get(1).is_some_and(|&above| rows[above][0] == NOT);
    vec![u8::from(under_not); steps]
}

/// What the papers say of a covered pair, asked of the reference: the trap table holds, and the witness makes the requirement false.
pub fn check_theorems(rows: &[Row], run: &[u32], occurrence: usize, covered: bool) {
    let what = || format!("{:?} {run:?} row {occurrence}", bytes_of(rows));
    let table = trap::table(rows, occurrence);
    let in_limits = table.len() <= TABLE_ROWS_MOST && wrong_row(&table, CONDITIONS_MOST).is_none();
    check(Check::TrapTableIsTable, in_limits, what);
    check(Check::TrapIsCoverage, holds(&table, run) == covered, what);
    let constant: Vec<bool> = witness(rows, occurrence, run.len()).iter().map(|&v| v == 1).collect();
    let made_false = holds(rows, run) && !holds_with(rows, run, occurrence, &constant);
    check(Check::WitnessMakesFalse, made_false == covered, what);
}
