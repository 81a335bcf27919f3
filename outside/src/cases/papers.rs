//! Document 01's examples and suite with the answers that stand there; document 002's Table 4; document 000's formulas.

use super::exhaustive::all_runs;
use super::make::{of_file, trap, truth, witness};
use super::Part;
use crate::batch::Batch;
use crate::case::{LIST, PAGE, SHEET};
use crate::random::Random;
use crate::reference::cover::covered;
use crate::reference::formula::*;
use crate::reference::truth::{holds, lines};
use crate::reference::{sheet, trap};
use crate::selfcheck::{check, Check};

/// Conditions a, b, c as bits of a step.
const A: u32 = 1;
const B: u32 = 2;
const C: u32 = 4;
const ABC: usize = 3;
const READ_A: Row = [CONDITION, 0, 0];
const READ_B: Row = [CONDITION, 1, 0];

/// Document 01's 52-byte suite, and what it prints.
pub const SUITE: [u8; 52] = [
    1, 2, 1, 2, 0x10, 0, 4, 0, 0x1C, 0, 3, 0, 0x28, 0, 3, 0, 2, 0, 0, 2, 1, 0, 5, 0, 1, 10, 2, 0, 0, 0, 0, 0, 1, 0, 0, 0, 2, 0, 0, 0, 0, 0,
    0, 0, 1, 0, 0, 0, 0, 0, 0, 0,
];
const SUITE_PRINTS: &str = "suite 1 2\nreq 0 occ 2 held 2\ncov 0 0 1\ncond 0 yes\ncond 1 no\ntotal 1 2\n";

/// finally (a or b).
pub const RUNNING: [Row; 4] = [READ_A, READ_B, [OR, 0, 1], [FINALLY, 2, 0]];
/// Rows 4 to 9 of example 2.
const RUNNING_TRAP: [Row; 6] = [[NOT, 1, 0], [AND, 0, 4], [NOT, 2, 0], [OR, 6, 5], [GLOBALLY, 7, 0], [AND, 3, 8]];
/// (a or b) until c.
const TABLE_4: [Row; 5] = [READ_A, READ_B, [OR, 0, 1], [CONDITION, 2, 0], [UNTIL, 2, 3]];

/// An example: a requirement, a run, whether it holds, and which occurrences are said to be covered or not.
struct Said {
    rows: &'static [Row],
    run: &'static [u32],
    holds: bool,
    covered: &'static [(usize, bool)],
}

const fn said(rows: &'static [Row], run: &'static [u32], holds: bool, covered: &'static [(usize, bool)]) -> Said {
    Said { rows, run, holds, covered }
}

const EXAMPLES: [Said; 14] = [
    said(&RUNNING, &[0, A, B], true, &[(0, false), (1, false)]),
    said(&RUNNING, &[0, A, 0], true, &[(0, true)]),
    said(&TABLE_4, &[A | B, A, B], false, &[(0, false), (1, false), (2, false)]),
    said(&TABLE_4, &[A | B, A | C], true, &[(0, false), (1, false), (2, true)]),
    said(&[READ_A, [WEAK_NEXT, 0, 0]], &[0], true, &[(0, false)]),
    said(&[READ_A, [WEAK_NEXT, 0, 0]], &[0, A], true, &[(0, true)]),
    said(&[READ_A, [STRONG_NEXT, 0, 0]], &[0], false, &[(0, false)]),
    said(&[READ_A, READ_B, [RELEASE, 0, 1]], &[B, A | B, 0], true, &[(0, true)]),
    said(&[READ_A, READ_B, [RELEASE, 0, 1]], &[B, A | B], true, &[(0, false), (1, true)]),
    said(&[READ_A, READ_A, [OR, 0, 1]], &[A], true, &[(0, false), (1, false)]),
    said(&[READ_A, READ_A, [AND, 0, 1]], &[A], true, &[(0, true), (1, true)]),
    said(&[READ_A, READ_A, [NOT, 1, 0], [OR, 0, 2]], &[A], true, &[(0, true)]),
    // The slips: true twice under "finally"; a release whose left side never comes.
    said(&[READ_A, [FINALLY, 0, 0]], &[A, A], true, &[(0, true)]),
    said(&[READ_A, READ_B, [RELEASE, 0, 1]], &[B, B], true, &[(0, false), (1, true)]),
];

/// A requirement of document 000, and the formulas it prints for the trap of one occurrence.
struct Printed {
    rows: &'static [Row],
    conditions: usize,
    occurrence: usize,
    formulas: &'static [&'static [Row]],
}

/// finally (a or b) for a: as derived, and "F(a) and G(not b)".
const RUNNING_FORMULAS: [&[Row]; 2] = [
    &[READ_A, READ_B, [OR, 0, 1], [FINALLY, 2, 0], [NOT, 1, 0], [AND, 0, 4], [NOT, 2, 0], [OR, 6, 5], [GLOBALLY, 7, 0], [AND, 3, 8]],
    &[READ_A, [FINALLY, 0, 0], READ_B, [NOT, 2, 0], [GLOBALLY, 3, 0], [AND, 1, 4]],
];

/// Figure 3, PM is 0 and MU is 1: globally (not PM or finally MU), for PM.
const FIGURE_3: [Row; 6] = [READ_A, [NOT, 0, 0], READ_B, [FINALLY, 2, 0], [OR, 1, 3], [GLOBALLY, 4, 0]];
#[rustfmt::skip]
const FIGURE_3_FORMULAS: [&[Row]; 2] = [
    &[READ_A, [NOT, 0, 0], READ_B, [NOT, 2, 0], [TRUE, 0, 0], [FALSE, 0, 0], [RELEASE, 5, 3], [AND, 1, 6], [UNTIL, 4, 7],
        [UNTIL, 4, 2], [OR, 1, 9], [RELEASE, 5, 10], [AND, 8, 11]],
    &[READ_A, [NOT, 0, 0], READ_B, [NOT, 2, 0], [GLOBALLY, 3, 0], [AND, 1, 4], [FINALLY, 5, 0],
        [FINALLY, 2, 0], [OR, 1, 7], [GLOBALLY, 8, 0], [AND, 6, 9]],
];

/// Figure 5, p1e p2e p1c p2c are 0 to 3: globally (not p1e or not p2e or finally (p1c or p2c)), for p1c.
#[rustfmt::skip]
const FIGURE_5: [Row; 11] = [READ_A, [NOT, 0, 0], READ_B, [NOT, 2, 0], [OR, 1, 3], [CONDITION, 2, 0], [CONDITION, 3, 0], [OR, 5, 6],
    [FINALLY, 7, 0], [OR, 4, 8], [GLOBALLY, 9, 0]];
#[rustfmt::skip]
const FIGURE_5_FORMULAS: [&[Row]; 1] = [
    &[READ_A, READ_B, [CONDITION, 2, 0], [CONDITION, 3, 0], [TRUE, 0, 0], [FALSE, 0, 0], [OR, 2, 3], [UNTIL, 4, 6], [NOT, 3, 0],
        [RELEASE, 5, 8], [AND, 7, 9], [AND, 1, 10], [AND, 0, 11], [UNTIL, 4, 12], [NOT, 0, 0], [NOT, 1, 0], [OR, 15, 7], [OR, 14, 16],
        [RELEASE, 5, 17], [AND, 13, 18]],
];
/// The same as the text of section 4.1 has it, with (p1e or p2e) on the left; its printed trap mixes both, so none is compared.
#[rustfmt::skip]
const SECTION_4: [Row; 11] = [READ_A, [NOT, 0, 0], READ_B, [NOT, 2, 0], [AND, 1, 3], [CONDITION, 2, 0], [CONDITION, 3, 0], [OR, 5, 6],
    [FINALLY, 7, 0], [OR, 4, 8], [GLOBALLY, 9, 0]];

const PRINTED: [Printed; 4] = [
    Printed { rows: &RUNNING, conditions: 2, occurrence: 0, formulas: &RUNNING_FORMULAS },
    Printed { rows: &FIGURE_3, conditions: 2, occurrence: 0, formulas: &FIGURE_3_FORMULAS },
    Printed { rows: &FIGURE_5, conditions: 4, occurrence: 2, formulas: &FIGURE_5_FORMULAS },
    Printed { rows: &SECTION_4, conditions: 4, occurrence: 2, formulas: &[] },
];

pub fn make(batch: &mut Batch, _: &mut Random, part: &Part) {
    examples(batch);
    first_cause();
    for printed in &PRINTED {
        let steps = if printed.conditions == 2 { part.pick(4, 5) } else { part.pick(2, 3) };
        all_runs(steps, printed.conditions).iter().for_each(|run| on_run(batch, printed, run));
    }
}

/// Document 01's own examples and suite.
pub fn examples(batch: &mut Batch) {
    for Said { rows, run, holds: verdict, covered: pairs } in &EXAMPLES {
        let (bytes, lines) = (bytes_of(rows), lines(rows, run));
        check(Check::PaperSaysSo, holds(rows, run) == *verdict, || format!("{rows:?} {run:?}"));
        batch.add(truth(&bytes, run, ABC));
        for (occurrence, row) in occurrences(rows).into_iter().enumerate() {
            let says = pairs.iter().find(|pair| pair.0 == occurrence).map(|pair| pair.1);
            let right = says.is_none_or(|says| says == covered(rows, run, &lines, row));
            check(Check::PaperSaysSo, right, || format!("{rows:?} {run:?} {occurrence}"));
            batch.add(witness(&bytes, run, ABC, occurrence, run.len() + 2));
            batch.add(trap(&bytes, ABC, occurrence, 3 * trap::table(rows, row).len() + 2));
        }
    }
    let added = trap::table(&RUNNING, 0).split_off(RUNNING.len());
    check(Check::PaperSaysSo, added == RUNNING_TRAP, || format!("{added:?}"));
    check(Check::PaperSaysSo, sheet::page(&SUITE) == SUITE_PRINTS, || sheet::page(&SUITE));
    for lent in [4, SUITE_PRINTS.len() - 1, SUITE_PRINTS.len(), SUITE_PRINTS.len() + 3] {
        batch.add(of_file(SHEET, &SUITE, 0, lent));
        batch.add(of_file(PAGE, &SUITE, 0, lent));
        batch.add(of_file(LIST, &SUITE, 0, lent));
    }
    batch.add(of_file(LIST, &SUITE, 1, 8));
}

/// Document 000, section 3.2: {} {a} {b} satisfies the first cause formula of a, which is no coverage.
fn first_cause() {
    let formula = [READ_A, READ_B, [NOT, 0, 0], [NOT, 1, 0], [AND, 2, 3], [AND, 0, 3], [UNTIL, 4, 5]];
    check(Check::PaperSaysSo, holds(&formula, &[0, A, B]), || "the first cause formula".into());
}

/// Every trap table, and every printed formula, holds exactly where the pair is covered; the program is asked for all of them.
fn on_run(batch: &mut Batch, printed: &Printed, run: &[u32]) {
    let (rows, bytes, lines) = (printed.rows, bytes_of(printed.rows), lines(printed.rows, run));
    for (occurrence, row) in occurrences(rows).into_iter().enumerate() {
        batch.add(witness(&bytes, run, printed.conditions, occurrence, run.len()));
        batch.add(truth(&bytes_of(&trap::table(rows, row)), run, printed.conditions));
    }
    let row = occurrences(rows)[printed.occurrence];
    for formula in printed.formulas {
        let right = holds(formula, run) == covered(rows, run, &lines, row);
        check(Check::PaperSaysSo, right, || format!("{formula:?} {run:?}"));
        batch.add(truth(&bytes_of(formula), run, printed.conditions));
    }
}
