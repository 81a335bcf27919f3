//! Coverage of long runs: the set of all columns of truth values that any sequence can reach, from the last step back.

use super::formula::*;
use super::trap::way;
use super::truth::Line;

/// More columns than this at one step, and the method gives up.
const COLUMNS_MOST: usize = 256;

/// A requirement has at most 32 rows: bit r is the value of row r, for the rows on the way only.
type Column = u32;

struct Setting<'a> {
    rows: &'a [Row],
    lines: &'a [Line],
    way: Vec<usize>,
    on_way: Column,
}

/// Does some sequence, read by the occurrence, make the requirement false at step 0? None: too many columns.
pub fn some_sequence_makes_false(rows: &[Row], lines: &[Line], occurrence: usize) -> Option<bool> {
    let way = way(rows, occurrence);
    let on_way = way.iter().map(|&row| 1 << row).sum();
    let setting = Setting { rows, lines, way, on_way };
    let top = rows.len() - 1;
    let mut columns: Vec<Option<Column>> = vec![None];
    for step in (0..lines[top].len()).rev() {
        let mut reached: Vec<Option<Column>> = Vec::with_capacity(2 * columns.len());
        for &after in &columns {
            for value in [false, true] {
                reached.push(Some(setting.column(step, value, after)));
            }
        }
        reached.sort_unstable();
        reached.dedup();
        if reached.len() > COLUMNS_MOST {
            return None;
        }
        columns = reached;
    }
    Some(columns.iter().flatten().any(|column| column >> top & 1 == 0))
}

impl Setting<'_> {
    /// The column at a step where the occurrence reads the value; `after` is the column of the step after, if there is one.
    fn column(&self, step: usize, value: bool, after: Option<Column>) -> Column {
        let mut column = Column::from(value) << self.way[0];
        for &s in &self.way[1..] {
            let [kind, first, second] = self.rows[s];
            let now = |field: u8| {
                let row = usize::from(field);
                let known = self.on_way >> row & 1 == 0;
                if known {
                    self.lines[row][step]
                } else {
                    column >> row & 1 == 1
                }
            };
            let later = |row: usize, past_end: bool| after.map_or(past_end, |column| column >> row & 1 == 1);
            let holds = match kind {
                NOT => !now(first),
                AND => now(first) && now(second),
                OR => now(first) || now(second),
                STRONG_NEXT => later(usize::from(first), false),
                WEAK_NEXT => later(usize::from(first), true),
                UNTIL => now(second) || now(first) && later(s, false),
                RELEASE => now(second) && (now(first) || later(s, true)),
                FINALLY => now(first) || later(s, false),
                GLOBALLY => now(first) && later(s, true),
                _ => now(second) || now(first) && later(s, true),
            };
            column |= Column::from(holds) << s;
        }
        column
    }
}
