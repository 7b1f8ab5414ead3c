//! "Priority promotion": regions, rounds, and the entries that A4 fixes.

use super::attractor::{drawn, lowest_in};
use crate::game::{Game, NONE};

/// Winners, their entries and rounds, and how often "if there is none, p stays" came up.
#[derive(Clone, Debug, PartialEq, Eq)]
pub struct Solved {
    pub winners: Vec<u8>,
    pub entries: Vec<u16>,
    pub rounds: u64,
    pub stays: u64,
}

/// None when more than `most` rounds would be needed.
pub fn solve(game: &Game, most: u64) -> Option<Solved> {
    let mut state = State::start(game);
    while state.unsolved() > 0 {
        if state.rounds == most {
            return None;
        }
        state.round();
    }
    Some(Solved { winners: state.winners, entries: state.entries, rounds: state.rounds, stays: state.stays })
}

struct State<'a> {
    game: &'a Game,
    /// The region of each unsolved vertex; none where it is solved.
    region: Vec<Option<u16>>,
    winners: Vec<u8>,
    entries: Vec<u16>,
    p: u16,
    rounds: u64,
    stays: u64,
}

impl State<'_> {
    fn start(game: &Game) -> State<'_> {
        let region: Vec<Option<u16>> = game.priorities.iter().copied().map(Some).collect();
        let p = game.priorities.iter().copied().max().unwrap_or(0);
        State { game, region, winners: vec![0; game.n()], entries: vec![NONE; game.n()], p, rounds: 0, stays: 0 }
    }

    fn unsolved(&self) -> usize {
        self.region.iter().flatten().count()
    }

    fn round(&mut self) {
        self.rounds += 1;
        let (p, a) = (self.p, (self.p % 2) as u8);
        let at_most_p = self.members(|region| region <= p);
        let at_p = self.members(|region| region == p);
        let (r, entries) = drawn(self.game, a, &at_most_p, &at_p);
        self.take_entries(&entries, |v| r[v] && !at_p[v]);
        self.give_region(&r, p);

        let escapes = self.escapes(&r, a);
        if escapes.iter().any(|region| *region < p) || self.stuck(&r, a) {
            let below = self.region.iter().flatten().copied().filter(|region| *region < p).max();
            self.stays += below.is_none() as u64;
            self.p = below.unwrap_or(p);
        } else if escapes.is_empty() {
            self.close(&r, a);
            self.win(&r, a);
        } else {
            self.close(&r, a);
            let q = escapes.into_iter().filter(|region| *region > p).min().expect("an escape lies above p");
            self.promote(&r, q);
        }
    }

    /// The regions of unsolved successors outside R of the opponent's vertices in R.
    fn escapes(&self, r: &[bool], a: u8) -> Vec<u16> {
        let opponents = (0..r.len()).filter(|v| r[*v] && self.game.owners[*v] != a);
        let successors = opponents.flat_map(|v| self.game.edges(v)).map(|w| *w as usize);
        successors.filter(|w| !r[*w]).filter_map(|w| self.region[w]).collect()
    }

    /// An own vertex of R has no successor in R.
    fn stuck(&self, r: &[bool], a: u8) -> bool {
        let mut own = (0..r.len()).filter(|v| r[*v] && self.game.owners[*v] == a);
        own.any(|v| self.game.edges(v).iter().all(|w| !r[*w as usize]))
    }

    /// An own vertex of R that has no entry takes its lowest-numbered successor in R.
    fn close(&mut self, r: &[bool], a: u8) {
        for v in (0..r.len()).filter(|v| r[*v] && self.game.owners[*v] == a) {
            if self.entries[v] == NONE {
                self.entries[v] = lowest_in(self.game, r, v);
            }
        }
    }

    fn take_entries(&mut self, entries: &[u16], test: impl Fn(usize) -> bool) {
        for v in (0..entries.len()).filter(|v| test(*v)) {
            self.entries[v] = entries[v];
        }
    }

    fn win(&mut self, r: &[bool], a: u8) {
        let unsolved = self.members(|_| true);
        let (won, entries) = drawn(self.game, a, &unsolved, r);
        self.take_entries(&entries, |v| unsolved[v] && !r[v]);
        for v in 0..won.len() {
            if won[v] {
                self.winners[v] = a;
                self.region[v] = None;
            } else if self.region[v].is_some() {
                self.region[v] = Some(self.game.priorities[v]);
            }
        }
        self.p = self.region.iter().flatten().copied().max().unwrap_or(0);
    }

    fn promote(&mut self, r: &[bool], q: u16) {
        for v in 0..r.len() {
            if !r[v] && self.region[v].is_some_and(|region| region < q) {
                self.region[v] = Some(self.game.priorities[v]);
                self.entries[v] = NONE;
            }
        }
        self.give_region(r, q);
        self.p = q;
    }

    fn members(&self, test: impl Fn(u16) -> bool) -> Vec<bool> {
        self.region.iter().map(|region| region.is_some_and(&test)).collect()
    }

    fn give_region(&mut self, r: &[bool], p: u16) {
        for v in 0..r.len() {
            if r[v] {
                self.region[v] = Some(p);
            }
        }
    }
}

/// The rounds that request A12 says are enough: n (n+2)^d, as far as 128 bits hold it.
pub fn bound(game: &Game) -> u128 {
    let n = game.n() as u128;
    (0..game.different_priorities()).fold(n, |product, _| product.saturating_mul(n + 2))
}
