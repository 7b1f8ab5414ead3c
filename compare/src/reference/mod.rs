//! Document 01's rules, written out plainly: sets are vectors of bool, attractors are swept until nothing changes.
//! Nothing here is taken from merc or from the port; it says what the rules say, slowly.

pub mod attractor;
pub mod checker;
pub mod compaction;
pub mod mending;
pub mod opinion;
pub mod promotion;
pub mod solitaire;
pub mod tables;
pub mod zielonka;

/// Number, place and count, as every function of the port gives them.
#[derive(Clone, Copy, Debug, PartialEq, Eq)]
pub struct Answer {
    pub number: u64,
    pub place: u64,
    pub count: u64,
}

impl Answer {
    pub fn yes(count: u64) -> Answer {
        Answer { number: 0, place: 0, count }
    }

    pub fn no(number: u64, place: usize) -> Answer {
        Answer { number, place: place as u64, count: 0 }
    }
}
