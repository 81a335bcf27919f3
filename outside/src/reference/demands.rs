//! Coverage of long runs, another way: what must be false at each step, followed from step 0 on, with every choice kept.

use super::formula::*;
use super::trap::way;
use super::truth::Line;

/// Bit r: row r, on the way, must be false at the step in hand.
type Demands = u32;

/// One way to meet the demands of a step.
#[derive(Clone, Copy)]
struct Choice {
    now: Demands,
    later: Demands,
    reads_false: bool,
    reads_true: bool,
}

/// What makes one row false: its child false now or not, the row or its child false at the next step or not.
struct Cause {
    child: bool,
    later: Option<usize>,
}

fn cause(child: bool, later: Option<usize>) -> Cause {
    Cause { child, later }
}

/// Does some sequence, read by the occurrence, make the requirement false at step 0?
pub fn some_sequence_makes_false(rows: &[Row], lines: &[Line], occurrence: usize) -> bool {
    let way = way(rows, occurrence);
    let top = rows.len() - 1;
    let steps = lines[top].len();
    let mut demands: Vec<Demands> = vec![1 << top];
    for step in 0..steps {
        let choices = choices_at(rows, lines, &way, step, &demands);
        if choices.iter().any(|choice| choice.later == 0) {
            return true;
        }
        demands = choices.iter().map(|choice| choice.later).collect();
        leave_out_harder(&mut demands);
    }
    false
}

/// All choices that meet some of the demands at a step; row by row from the last row down to the occurrence.
fn choices_at(rows: &[Row], lines: &[Line], way: &[usize], step: usize, demands: &[Demands]) -> Vec<Choice> {
    let mut choices: Vec<Choice> = demands.iter().map(|&now| Choice { now, later: 0, reads_false: false, reads_true: false }).collect();
    for k in (0..way.len()).rev() {
        let s = way[k];
        let mut met = Vec::with_capacity(choices.len());
        for choice in choices {
            if choice.now >> s & 1 == 0 {
                met.push(choice);
            } else if k == 0 {
                met.push(Choice { reads_false: true, ..choice });
            } else if rows[s][0] == NOT {
                met.push(Choice { reads_true: true, ..choice });
            } else {
                let c = way[k - 1];
                for cause in causes(rows, lines, s, c, step) {
                    let now = choice.now | Demands::from(cause.child) << c;
                    let later = choice.later | cause.later.map_or(0, |row| 1 << row);
                    met.push(Choice { now, later, ..choice });
                }
            }
        }
        choices = met;
    }
    choices.retain(|choice| !(choice.reads_false && choice.reads_true));
    choices
}

/// The causes that make row s false at a step; c is its child on the way, and the other child is what the run says.
fn causes(rows: &[Row], lines: &[Line], s: usize, c: usize, step: usize) -> Vec<Cause> {
    let [kind, first, second] = rows[s];
    let left = usize::from(first) == c;
    let o = lines[usize::from(if left { second } else { first })][step];
    let last = step + 1 == lines[s].len();
    // Past the last step a strong row counts as false and a weak row as true.
    let strong_later = |child: bool| vec![cause(child, if last { None } else { Some(s) })];
    let weak_later = |child: bool| if last { vec![] } else { vec![cause(child, Some(s))] };
    let or_child = |mut list: Vec<Cause>| {
        list.push(cause(true, None));
        list
    };
    match (kind, left) {
        (AND, _) => vec![cause(o, None)],
        (OR, _) if o => vec![],
        (OR, _) => vec![cause(true, None)],
        (STRONG_NEXT, _) => vec![cause(false, if last { None } else { Some(c) })],
        (WEAK_NEXT, _) if last => vec![],
        (WEAK_NEXT, _) => vec![cause(false, Some(c))],
        (UNTIL | WEAK_UNTIL, false) if !o => vec![cause(true, None)],
        (UNTIL, false) | (FINALLY, _) => strong_later(true),
        (WEAK_UNTIL, false) => weak_later(true),
        (UNTIL | WEAK_UNTIL, true) if o => vec![],
        (UNTIL, true) => or_child(strong_later(false)),
        (WEAK_UNTIL, true) | (GLOBALLY, _) => or_child(weak_later(false)),
        (RELEASE, true) if !o => vec![cause(false, None)],
        (RELEASE, true) => weak_later(true),
        (RELEASE, false) if o => vec![cause(true, None)],
        _ => or_child(weak_later(false)),
    }
}

/// A list of demands that asks all that another asks, and more, is met only where the other is.
fn leave_out_harder(demands: &mut Vec<Demands>) {
    demands.sort_unstable_by_key(|d| (d.count_ones(), *d));
    demands.dedup();
    let mut kept: Vec<Demands> = Vec::with_capacity(demands.len());
    for &demand in demands.iter() {
        if !kept.iter().any(|easier| demand & easier == *easier) {
            kept.push(demand);
        }
    }
    *demands = kept;
}
