//! The cases, each kind in a file.

pub mod damage;
pub mod exhaustive;
pub mod faults;
pub mod great;
pub mod lent;
pub mod limits;
pub mod logs;
pub mod make;
pub mod papers;
pub mod random;
pub mod tables;
pub mod whole;

use crate::batch::Batch;
use crate::random::Random;

/// One part of the cases of a kind.
pub struct Part {
    pub number: usize,
    pub of: usize,
    pub full: bool,
}

impl Part {
    /// Is the thing of this number in this part?
    pub fn has(&self, thing: usize) -> bool {
        thing % self.of == self.number
    }

    pub fn pick(&self, short: usize, full: usize) -> usize {
        if self.full {
            full
        } else {
            short
        }
    }
}

pub struct Kind {
    pub name: &'static str,
    pub short_parts: usize,
    pub full_parts: usize,
    pub make: fn(&mut Batch, &mut Random, &Part),
}

impl Kind {
    pub fn parts(&self, full: bool) -> impl Iterator<Item = Part> {
        let of = if full { self.full_parts } else { self.short_parts };
        (0..of).map(move |number| Part { number, of, full })
    }
}

const fn kind(name: &'static str, parts: (usize, usize), make: fn(&mut Batch, &mut Random, &Part)) -> Kind {
    Kind { name, short_parts: parts.0, full_parts: parts.1, make }
}

/// How many parts short and full have; in the random kinds the work grows with them.
pub const KINDS: [Kind; 15] = [
    kind("papers", (1, 1), papers::make),
    kind("exhaustive requirements", (4, 32), exhaustive::make),
    kind("exhaustive tables", (4, 16), tables::make),
    kind("random tables", (2, 24), random::tables),
    kind("random requirements", (3, 40), random::requirements),
    kind("long runs", (2, 60), random::long_runs),
    kind("random suites", (3, 40), random::suites),
    kind("large suites", (1, 8), random::large_suites),
    kind("limits", (1, 1), limits::make),
    kind("damaged files", (3, 24), damage::files),
    kind("damaged tables", (2, 12), damage::tables),
    kind("lent parts", (2, 16), lent::make),
    kind("recorded runs", (2, 16), logs::make),
    kind("whole files, program sheet", (2, 8), whole::files),
    kind("whole logs, program travel", (1, 4), whole::logs),
];
