//! The reference: document 01 and wish 5 of document 02, one small module a subject.

pub mod columns;
pub mod cover;
pub mod demands;
pub mod formula;
pub mod limits;
pub mod log;
pub mod sheet;
pub mod suite;
pub mod trap;
pub mod truth;

/// Where a refusal points. Document 01's "place 0" that means no place is `None`.
#[derive(Clone, Copy, Debug, PartialEq, Eq)]
pub enum Place {
    None,
    Byte(usize),
    Row(usize),
    Step(usize),
}

impl Place {
    pub fn number(self) -> usize {
        match self {
            Place::None => 0,
            Place::Byte(n) | Place::Row(n) | Place::Step(n) => n,
        }
    }
}

#[derive(Clone, Copy, Debug, PartialEq, Eq)]
pub struct Refusal {
    pub number: u32,
    pub place: Place,
}

pub fn refusal(number: u32) -> Refusal {
    Refusal { number, place: Place::None }
}

pub fn refusal_at(number: u32, place: Place) -> Refusal {
    Refusal { number, place }
}
