//! What a function gives back, and why there is no answer.
#![forbid(unsafe_code)]

use std::fmt;

/// What every function of [`doors`](crate::doors) gives.
#[must_use = "the outputs hold an answer only if the number is 0"]
#[derive(Clone, Copy, Debug, PartialEq, Eq)]
pub struct Answer {
    /// 0 for an answer; otherwise the number of the refusal, or of the checker's finding.
    pub number: u64,
    /// Where the refusal or the finding lies; 0 with an answer.
    pub place: u64,
    /// Calls, rounds, looks or a list's length of an answer, the budget with number 13, else 0.
    pub count: u64,
}

/// The numbers that are no answer, each with its place where it has one. Later versions may have more.
#[non_exhaustive]
#[derive(Clone, Copy, Debug, PartialEq, Eq)]
pub enum Refusal {
    /// 1: more than 4,096 vertices.
    TooManyVertices,
    /// 2: the priorities are not n or the offsets not n + 1.
    TableLengths,
    /// 3: more than 16,384 edges.
    TooManyEdges,
    /// 4: an owner that is neither 0 nor 1, at the lowest such vertex.
    BadOwner(usize),
    /// 5: a priority above 255, at the lowest such vertex.
    BadPriority(usize),
    /// 6: the first offset is not 0, or one is above the next, or the last is not m, at this index.
    BadOffset(usize),
    /// 7: a target that is no vertex, at the lowest such edge.
    BadTarget(usize),
    /// 8: a vertex without an edge, the lowest.
    DeadEnd(usize),
    /// 9: a set that is not s words, or a strategy or new priority table that is not n entries.
    BadSize,
    /// 10: a work area shorter than W words.
    ShortWork,
    /// 11: two owners differ in a solitaire game.
    OwnersDiffer,
    /// 12: a bit at n or above, or a bit of the target that is not in `within`, the lowest.
    StrayBit(usize),
    /// 13: more calls or rounds are needed than the budget.
    OverBudget,
    /// 21: in both sets or in neither, or at n or above, the lowest bit.
    NotOneWinner(usize),
    /// 22: an entry where there must be none, or one that is no edge where one is needed, at the lowest vertex.
    BadEntry(usize),
    /// 23: an edge that leaves the winner's set, at the lowest vertex.
    LeavesSet(usize),
    /// 24: on a cycle that the other player wins, the lowest vertex.
    LosingCycle(usize),
    /// 30: no text of the grammar can follow this byte, or the text ends too soon or has no record, at its length.
    BadText(usize),
    /// 31: the lowest identifier that is not there exactly once, or the number of records where N is wrong.
    BadIdentifier(usize),
    /// 32: the byte that goes beyond a limit.
    BeyondLimit(usize),
    /// 33: no vertex, so that there is nothing to write.
    NoVertex,
    /// 34: a text shorter than this length, which is needed.
    ShortText(usize),
    /// 25: no vertex has an entry, in the place of 22 and at the vertex that 22 would name.
    NoStrategy(usize),
    /// 35: an output or a list shorter than needed.
    ShortOutput,
    /// 41: no such vertex or edge, the one asked for.
    NoSuchEntry(usize),
    /// 42: a priority above 255, for this vertex.
    HighPriority(usize),
    /// 43: a target that is no vertex, for this edge.
    NoSuchTarget(usize),
    /// 44: a vertex that is not below n.
    NoSuchVertex(usize),
    /// 45: a list shorter than 2·n entries.
    ShortList,
    /// 46: a vertex from which no cycle of the owner's parity can be reached.
    NoLoop(usize),
    /// 47: kept numbers that a fresh count does not give. [`Game`](crate::Game) keeps its own and never gives it.
    KeptDiffer,
    /// 48: an owner that is neither 0 nor 1, for this vertex.
    NoSuchOwner(usize),
    /// A number that this crate does not know. The library that it is made for gives none.
    Unknown {
        /// The number.
        number: u64,
        /// The place that came with it.
        place: usize,
    },
}

impl Refusal {
    /// The number and the place, as the library gives them; the place is 0 where the number has none.
    pub fn number_and_place(self) -> (u64, usize) {
        match self {
            Refusal::TooManyVertices => (1, 0),
            Refusal::TableLengths => (2, 0),
            Refusal::TooManyEdges => (3, 0),
            Refusal::BadOwner(vertex) => (4, vertex),
            Refusal::BadPriority(vertex) => (5, vertex),
            Refusal::BadOffset(index) => (6, index),
            Refusal::BadTarget(edge) => (7, edge),
            Refusal::DeadEnd(vertex) => (8, vertex),
            Refusal::BadSize => (9, 0),
            Refusal::ShortWork => (10, 0),
            Refusal::OwnersDiffer => (11, 0),
            Refusal::StrayBit(bit) => (12, bit),
            Refusal::OverBudget => (13, 0),
            Refusal::NotOneWinner(bit) => (21, bit),
            Refusal::BadEntry(vertex) => (22, vertex),
            Refusal::LeavesSet(vertex) => (23, vertex),
            Refusal::LosingCycle(vertex) => (24, vertex),
            Refusal::BadText(byte) => (30, byte),
            Refusal::BadIdentifier(identifier) => (31, identifier),
            Refusal::BeyondLimit(byte) => (32, byte),
            Refusal::NoVertex => (33, 0),
            Refusal::ShortText(length) => (34, length),
            Refusal::NoStrategy(vertex) => (25, vertex),
            Refusal::ShortOutput => (35, 0),
            Refusal::NoSuchEntry(entry) => (41, entry),
            Refusal::HighPriority(vertex) => (42, vertex),
            Refusal::NoSuchTarget(edge) => (43, edge),
            Refusal::NoSuchVertex(vertex) => (44, vertex),
            Refusal::ShortList => (45, 0),
            Refusal::NoLoop(vertex) => (46, vertex),
            Refusal::KeptDiffer => (47, 0),
            Refusal::NoSuchOwner(vertex) => (48, vertex),
            Refusal::Unknown { number, place } => (number, place),
        }
    }
}

impl Answer {
    /// The count of an answer, or the refusal; a number that this crate does not know is [`Refusal::Unknown`].
    pub fn result(self) -> Result<u64, Refusal> {
        let place = self.place as usize;
        Err(match self.number {
            0 => return Ok(self.count),
            1 => Refusal::TooManyVertices,
            2 => Refusal::TableLengths,
            3 => Refusal::TooManyEdges,
            4 => Refusal::BadOwner(place),
            5 => Refusal::BadPriority(place),
            6 => Refusal::BadOffset(place),
            7 => Refusal::BadTarget(place),
            8 => Refusal::DeadEnd(place),
            9 => Refusal::BadSize,
            10 => Refusal::ShortWork,
            11 => Refusal::OwnersDiffer,
            12 => Refusal::StrayBit(place),
            13 => Refusal::OverBudget,
            21 => Refusal::NotOneWinner(place),
            22 => Refusal::BadEntry(place),
            23 => Refusal::LeavesSet(place),
            24 => Refusal::LosingCycle(place),
            30 => Refusal::BadText(place),
            31 => Refusal::BadIdentifier(place),
            32 => Refusal::BeyondLimit(place),
            33 => Refusal::NoVertex,
            34 => Refusal::ShortText(place),
            25 => Refusal::NoStrategy(place),
            35 => Refusal::ShortOutput,
            41 => Refusal::NoSuchEntry(place),
            42 => Refusal::HighPriority(place),
            43 => Refusal::NoSuchTarget(place),
            44 => Refusal::NoSuchVertex(place),
            45 => Refusal::ShortList,
            46 => Refusal::NoLoop(place),
            47 => Refusal::KeptDiffer,
            48 => Refusal::NoSuchOwner(place),
            number => Refusal::Unknown { number, place },
        })
    }
}

impl fmt::Display for Refusal {
    /// The number, its place where it has one, and what it means: `4 at vertex 1: the owner is neither 0 nor 1`.
    fn fmt(&self, f: &mut fmt::Formatter<'_>) -> fmt::Result {
        let (at, said) = match self {
            Refusal::TooManyVertices => (None, "more than 4096 vertices"),
            Refusal::TableLengths => (None, "the tables' lengths do not agree"),
            Refusal::TooManyEdges => (None, "more than 16384 edges"),
            Refusal::BadOwner(_) => (Some("vertex"), "the owner is neither 0 nor 1"),
            Refusal::BadPriority(_) => (Some("vertex"), "the priority is above 255"),
            Refusal::BadOffset(_) => (Some("index"), "the offsets do not cut the edges into rows"),
            Refusal::BadTarget(_) => (Some("edge"), "the edge ends at no vertex"),
            Refusal::DeadEnd(_) => (Some("vertex"), "the vertex has no edge"),
            Refusal::BadSize => (None, "a set, a strategy or a table has the wrong length"),
            Refusal::ShortWork => (None, "the work area is too short"),
            Refusal::OwnersDiffer => (None, "two owners differ"),
            Refusal::StrayBit(_) => (Some("bit"), "the bit must not be set"),
            Refusal::OverBudget => (None, "the budget is too small"),
            Refusal::NotOneWinner(_) => (Some("bit"), "not exactly one winner"),
            Refusal::BadEntry(_) => (Some("vertex"), "the strategy's entry is not lawful"),
            Refusal::LeavesSet(_) => (Some("vertex"), "an edge leaves the winner's set"),
            Refusal::LosingCycle(_) => (Some("vertex"), "on a cycle that the other player wins"),
            Refusal::BadText(_) => (Some("byte"), "no text of PGSolver's form goes on here"),
            Refusal::BadIdentifier(_) => (Some("identifier"), "the identifiers are not 0 to the highest, each once"),
            Refusal::BeyondLimit(_) => (Some("byte"), "the text goes beyond a limit"),
            Refusal::NoVertex => (None, "the game has no vertex"),
            Refusal::ShortText(_) => (Some("length"), "the text is shorter than needed"),
            Refusal::NoStrategy(_) => (Some("vertex"), "an entry is needed, and the strategy has none at all"),
            Refusal::ShortOutput => (None, "an output or the list is too short"),
            Refusal::NoSuchEntry(_) => (Some("vertex or edge"), "there is none"),
            Refusal::HighPriority(_) => (Some("vertex"), "the new priority is above 255"),
            Refusal::NoSuchTarget(_) => (Some("edge"), "the new target is no vertex"),
            Refusal::NoSuchVertex(_) => (Some("vertex"), "there is no such vertex"),
            Refusal::ShortList => (None, "a list is shorter than twice the vertices"),
            Refusal::NoLoop(_) => (Some("vertex"), "no cycle that the owner wins can be reached"),
            Refusal::KeptDiffer => (None, "the kept numbers are not a fresh count's"),
            Refusal::NoSuchOwner(_) => (Some("vertex"), "the new owner is neither 0 nor 1"),
            Refusal::Unknown { .. } => (Some("place"), "a number that this crate does not know"),
        };
        let (number, place) = self.number_and_place();
        match at {
            Some(what) => write!(f, "{} at {} {}: {}", number, what, place, said),
            None => write!(f, "{}: {}", number, said),
        }
    }
}

impl std::error::Error for Refusal {}
