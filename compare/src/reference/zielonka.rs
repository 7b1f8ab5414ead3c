//! "Zielonka on V": the recursion on sets, its calls, and A4's entries.

use super::attractor::{drawn, looks, lowest_in};
use crate::game::{Game, NONE};

/// Winners, their entries, calls, and the looks of all attractors together.
#[derive(Clone, Debug, PartialEq, Eq)]
pub struct Solved {
    pub winners: Vec<u8>,
    pub entries: Vec<u16>,
    pub calls: u64,
    pub looks: u64,
}

/// None when more than `most` calls would be needed.
pub fn solve(game: &Game, most: u64) -> Option<Solved> {
    let mut run = Run { game, most, calls: 0, looks: 0 };
    let (odd, entries) = run.odd_wins(&vec![true; game.n()])?;
    Some(Solved { winners: odd.iter().map(|won| *won as u8).collect(), entries, calls: run.calls, looks: run.looks })
}

struct Run<'a> {
    game: &'a Game,
    most: u64,
    calls: u64,
    looks: u64,
}

impl Run<'_> {
    /// One call on V: the vertices of V that Odd wins, and the winners' entries. Even wins the rest of V.
    fn odd_wins(&mut self, v: &[bool]) -> Option<(Vec<bool>, Vec<u16>)> {
        if self.calls == self.most {
            return None;
        }
        self.calls += 1;
        let Some(p) = highest(self.game, v) else { return Some((v.to_vec(), vec![NONE; v.len()])) };
        let a = (p % 2) as u8;
        let u: Vec<bool> = (0..v.len()).map(|x| v[x] && self.game.priorities[x] == p).collect();

        let (set, entries) = self.attract(a, v, &u);
        let rest = without(v, &set);
        let (first, nested) = self.odd_wins(&rest)?;
        let opponents = if a == 0 { first } else { without(&rest, &first) };
        if !opponents.contains(&true) {
            let won = if a == 1 { v.to_vec() } else { vec![false; v.len()] };
            let entry = |x: usize| match (u[x], set[x]) {
                (true, _) if self.game.owners[x] == a => lowest_in(self.game, v, x),
                (true, _) => NONE,
                (_, true) => entries[x],
                _ => nested[x],
            };
            return Some((won, (0..v.len()).map(entry).collect()));
        }

        let (b, entries) = self.attract(1 - a, v, &opponents);
        let (second, last) = self.odd_wins(&without(v, &b))?;
        let won = if a == 0 { (0..v.len()).map(|x| b[x] || second[x]).collect() } else { second };
        let entry = |x: usize| match (opponents[x], b[x]) {
            (true, _) => nested[x],
            (_, true) => entries[x],
            _ => last[x],
        };
        Some((won, (0..v.len()).map(entry).collect()))
    }

    fn attract(&mut self, player: u8, v: &[bool], target: &[bool]) -> (Vec<bool>, Vec<u16>) {
        let (result, entries) = drawn(self.game, player, v, target);
        self.looks += looks(self.game, &result);
        (result, entries)
    }
}

fn highest(game: &Game, v: &[bool]) -> Option<u16> {
    (0..v.len()).filter(|x| v[*x]).map(|x| game.priorities[x]).max()
}

fn without(v: &[bool], gone: &[bool]) -> Vec<bool> {
    v.iter().zip(gone).map(|(member, out)| *member && !*out).collect()
}

/// Demand 3's budget: 2 (C(n,0) + C(n,1) + .. + C(n,d)) - 1, as far as 128 bits hold it.
pub fn bound(game: &Game) -> u128 {
    let n = game.n() as u128;
    let mut choose: u128 = 1;
    let mut sum: u128 = 1;
    for k in 1..=game.different_priorities() as u128 {
        choose = choose.saturating_mul(n + 1 - k) / k;
        sum = sum.saturating_add(choose);
    }
    sum.saturating_mul(2) - 1
}
