//! Formula rows, and the checks 3, 7, 8, 9 and 12 of a lone table.

use super::limits::{CONDITIONS_MOST, REQUIREMENT_ROWS_MOST, ROW_BYTES, TABLE_ROWS_MOST};
use super::{refusal, refusal_at, Place, Refusal};

/// Kind, first, second.
pub type Row = [u8; ROW_BYTES];

pub const FALSE: u8 = 0;
pub const TRUE: u8 = 1;
pub const CONDITION: u8 = 2;
pub const NOT: u8 = 3;
pub const AND: u8 = 4;
pub const OR: u8 = 5;
pub const STRONG_NEXT: u8 = 6;
pub const WEAK_NEXT: u8 = 7;
pub const UNTIL: u8 = 8;
pub const RELEASE: u8 = 9;
pub const FINALLY: u8 = 10;
pub const GLOBALLY: u8 = 11;
pub const WEAK_UNTIL: u8 = 12;

/// How a kind uses its two fields.
#[derive(Clone, Copy, PartialEq, Eq)]
pub enum Fields {
    Neither,
    Condition,
    OneRow,
    TwoRows,
}

/// None: the kind is unknown.
pub fn fields(kind: u8) -> Option<Fields> {
    match kind {
        FALSE | TRUE => Some(Fields::Neither),
        CONDITION => Some(Fields::Condition),
        NOT | STRONG_NEXT | WEAK_NEXT | FINALLY | GLOBALLY => Some(Fields::OneRow),
        AND | OR | UNTIL | RELEASE | WEAK_UNTIL => Some(Fields::TwoRows),
        _ => None,
    }
}

/// How many times a row names the row `named`.
fn times_named(row: Row, named: usize) -> usize {
    let first = usize::from(usize::from(row[1]) == named);
    let second = usize::from(usize::from(row[2]) == named);
    match fields(row[0]) {
        Some(Fields::OneRow) => first,
        Some(Fields::TwoRows) => first + second,
        _ => 0,
    }
}

/// The lowest row that names the row `named`.
pub fn namer(rows: &[Row], named: usize) -> Option<usize> {
    rows.iter().position(|&row| times_named(row, named) > 0)
}

/// Check 3 of an operation on a lone table or run.
pub fn check_conditions(conditions: usize) -> Result<(), Refusal> {
    if (1..=CONDITIONS_MOST).contains(&conditions) {
        Ok(())
    } else {
        Err(refusal(3))
    }
}

/// Check 7.
fn rows_of(table: &[u8], most: usize) -> Result<Vec<Row>, Refusal> {
    let count = table.len() / ROW_BYTES;
    if table.len() % ROW_BYTES != 0 || count < 1 || count > most {
        return Err(refusal(7));
    }
    Ok(table.chunks_exact(ROW_BYTES).map(|row| [row[0], row[1], row[2]]).collect())
}

fn row_is_right(row: Row, number: usize, conditions: usize) -> bool {
    let (first, second) = (usize::from(row[1]), usize::from(row[2]));
    match fields(row[0]) {
        None => false,
        Some(Fields::Neither) => first == 0 && second == 0,
        Some(Fields::Condition) => first < conditions && second == 0,
        Some(Fields::OneRow) => first < number && second == 0,
        Some(Fields::TwoRows) => first < number && second < number,
    }
}

/// Check 8: the lowest wrong row.
pub fn wrong_row(rows: &[Row], conditions: usize) -> Option<usize> {
    (0..rows.len()).find(|&number| !row_is_right(rows[number], number, conditions))
}

/// Check 9, of rows that passed 8: the lowest row that no requirement may have.
pub fn row_of_no_requirement(rows: &[Row]) -> Option<usize> {
    let last = rows.len() - 1;
    (0..rows.len()).find(|&number| {
        let named: usize = rows.iter().map(|&row| times_named(row, number)).sum();
        let over_another = rows[number][0] == NOT && rows[usize::from(rows[number][1])][0] != CONDITION;
        (number != last && named != 1) || over_another
    })
}

/// A lone formula table: checks 3, 7, 8.
pub fn lone_table(table: &[u8], conditions: usize) -> Result<Vec<Row>, Refusal> {
    lone(table, conditions, TABLE_ROWS_MOST)
}

/// A lone requirement: checks 3, 7, 8, 9.
pub fn lone_requirement(table: &[u8], conditions: usize) -> Result<Vec<Row>, Refusal> {
    let rows = lone(table, conditions, REQUIREMENT_ROWS_MOST)?;
    match row_of_no_requirement(&rows) {
        Some(row) => Err(refusal_at(9, Place::Row(row))),
        None => Ok(rows),
    }
}

fn lone(table: &[u8], conditions: usize, most: usize) -> Result<Vec<Row>, Refusal> {
    check_conditions(conditions)?;
    let rows = rows_of(table, most)?;
    match wrong_row(&rows, conditions) {
        Some(row) => Err(refusal_at(8, Place::Row(row))),
        None => Ok(rows),
    }
}

/// The condition rows by ascending row number; an occurrence number is a place in this list.
pub fn occurrences(rows: &[Row]) -> Vec<usize> {
    (0..rows.len()).filter(|&number| rows[number][0] == CONDITION).collect()
}

/// Check 12 of a lone requirement: the row of the occurrence.
pub fn occurrence_row(rows: &[Row], occurrence: usize) -> Result<usize, Refusal> {
    occurrences(rows).get(occurrence).copied().ok_or(refusal(12))
}

pub fn bytes_of(rows: &[Row]) -> Vec<u8> {
    rows.concat()
}
