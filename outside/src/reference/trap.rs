//! The trap table of an occurrence: document 01's table of added rows, line by line.

use super::formula::*;

/// The rows from the occurrence's row up to the last row.
pub fn way(rows: &[Row], occurrence: usize) -> Vec<usize> {
    let mut way = vec![occurrence];
    while let Some(above) = way.last().and_then(|&row| namer(rows, row)) {
        way.push(above);
    }
    way
}

/// The requirement's own rows, and the added ones straight after them.
pub fn table(rows: &[Row], occurrence: usize) -> Vec<Row> {
    let mut table = rows.to_vec();
    let (mut c, mut t) = (occurrence, occurrence);
    for s in way(rows, occurrence).into_iter().skip(1) {
        // A "not" stands only over the occurrence itself: it is the trap there, and the way starts at it.
        t = if rows[s][0] == NOT { s } else { add(&mut table, s, c, t) };
        c = s;
    }
    table
}

/// Adds the rows for s over its child c whose trap is t; the last row added is the trap of s.
fn add(table: &mut Vec<Row>, s: usize, c: usize, t: usize) -> usize {
    let [kind, first, second] = table[s];
    let left = usize::from(first) == c;
    let o = usize::from(if left { second } else { first });
    let mut put = |kind: u8, first: usize, second: usize| {
        table.push([kind, first as u8, second as u8]);
        table.len() - 1
    };
    match (kind, left) {
        (AND, _) => put(AND, t, o),
        (OR, _) => {
            let not_o = put(NOT, o, 0);
            put(AND, t, not_o)
        }
        (STRONG_NEXT | WEAK_NEXT, _) => put(STRONG_NEXT, t, 0),
        (UNTIL, false) => {
            let not_o = put(NOT, o, 0);
            let not_c = put(NOT, c, 0);
            let or = put(OR, not_c, t);
            let that = put(RELEASE, not_o, or);
            put(AND, s, that)
        }
        (UNTIL, true) => {
            let not_o = put(NOT, o, 0);
            let and = put(AND, t, not_o);
            let that = put(UNTIL, not_o, and);
            put(AND, s, that)
        }
        (RELEASE, true) => {
            let not_c = put(NOT, c, 0);
            let or = put(OR, not_c, t);
            let not_o = put(NOT, o, 0);
            let that = put(UNTIL, or, not_o);
            put(AND, s, that)
        }
        _ => add_lower_lines(put, kind, left, [s, c, t, o]),
    }
}

/// The lines of the table from "release, right" on.
fn add_lower_lines(mut put: impl FnMut(u8, usize, usize) -> usize, kind: u8, left: bool, [s, c, t, o]: [usize; 4]) -> usize {
    match (kind, left) {
        (RELEASE, false) => {
            let not_o = put(NOT, o, 0);
            let that = put(UNTIL, not_o, t);
            put(AND, s, that)
        }
        (FINALLY, _) => {
            let not_c = put(NOT, c, 0);
            let or = put(OR, not_c, t);
            let that = put(GLOBALLY, or, 0);
            put(AND, s, that)
        }
        (GLOBALLY, _) => {
            let that = put(FINALLY, t, 0);
            put(AND, s, that)
        }
        (_, false) => {
            let not_c = put(NOT, c, 0);
            let or = put(OR, not_c, t);
            let not_o = put(NOT, o, 0);
            let and = put(AND, not_o, or);
            let that = put(UNTIL, or, and);
            put(AND, s, that)
        }
        (_, true) => {
            let not_o = put(NOT, o, 0);
            let and = put(AND, not_o, t);
            let that = put(UNTIL, not_o, and);
            put(AND, s, that)
        }
    }
}
