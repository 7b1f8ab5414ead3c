//! The quasi-polynomial recursion with its calls: as the port goes, and taken literally.

use super::attractor::attractor;
use crate::game::Game;

/// Winners and calls.
#[derive(Clone, Debug, PartialEq, Eq)]
pub struct Opinion {
    pub winners: Vec<u8>,
    pub calls: u64,
}

/// What is left of V, and whether it keeps all of its player's dominions and drops all of the opponent's.
struct Answer {
    left: Vec<bool>,
    keeps: bool,
    drops: bool,
}

/// As the port goes. None when more than `most` calls would be needed.
pub fn solve(game: &Game, most: u64) -> Option<Opinion> {
    let mut run = Run { game, most, calls: 0 };
    let n = game.n();
    let even = run.solver(0, vec![true; n], n, n)?.left;
    Some(Opinion { winners: even.iter().map(|won| !*won as u8).collect(), calls: run.calls })
}

/// Without the laws that pass over empty heights, cut precisions and make answers sharp.
pub fn literal(game: &Game, most: u64) -> Option<Opinion> {
    let mut run = Run { game, most, calls: 0 };
    let n = game.n();
    let highest = game.priorities.iter().copied().max().unwrap_or(0);
    let even = run.plain(0, vec![true; n], i32::from(highest + highest % 2), n, n)?;
    Some(Opinion { winners: even.iter().map(|won| !*won as u8).collect(), calls: run.calls })
}

struct Run<'a> {
    game: &'a Game,
    most: u64,
    calls: u64,
}

impl Run<'_> {
    fn count(&mut self) -> Option<()> {
        self.calls += 1;
        (self.calls <= self.most).then_some(())
    }

    fn solver(&mut self, a: u8, mut v: Vec<bool>, own: usize, other: usize) -> Option<Answer> {
        self.count()?;
        let size = members(&v);
        let mine = own.min(size);
        if mine == 0 {
            return Some(Answer { left: vec![false; v.len()], keeps: size == 0, drops: true });
        }
        let p = (0..v.len()).filter(|x| v[*x]).map(|x| self.game.priorities[x]).max().unwrap_or(0);
        if (p % 2) as u8 != a {
            let turned = self.solver(1 - a, v.clone(), other, own)?;
            return Some(Answer { left: without(&v, &turned.left), keeps: turned.drops, drops: turned.keeps });
        }
        let full = other.min(size);
        let half = full / 2;
        let (mut stage, mut keeps, mut drops) = (usize::from(half == 0), true, false);
        while stage < 3 {
            let k = if stage == 1 { full } else { half };
            let found = self.solver(1 - a, self.rest(a, &v, p), k, mine)?;
            if members(&found.left) > 0 {
                v = without(&v, &attractor(self.game, 1 - a, &v, &found.left));
                keeps &= found.drops;
                stage = if stage == 0 { 0 } else if half == 0 { 3 } else { 2 };
            } else {
                drops = found.keeps;
                stage = if stage == 0 && !found.keeps { 1 } else { 3 };
            }
        }
        Some(Answer { left: v, keeps: keeps || mine == size, drops: drops || full == size })
    }

    fn plain(&mut self, a: u8, mut v: Vec<bool>, height: i32, own: usize, other: usize) -> Option<Vec<bool>> {
        self.count()?;
        if own == 0 || members(&v) == 0 {
            return Some(vec![false; v.len()]);
        }
        let mut stage = 0;
        while stage < 3 {
            let k = if stage == 1 { other } else { other / 2 };
            let found = self.plain(1 - a, self.rest(a, &v, height as u16), height - 1, k, own)?;
            let some = members(&found) > 0;
            v = without(&v, &attractor(self.game, 1 - a, &v, &found));
            stage = match (stage, some) {
                (0, true) => 0,
                (0, false) => 1,
                (_, true) => 2,
                (_, false) => 3,
            };
        }
        Some(v)
    }

    /// V without what the player draws to the priority.
    fn rest(&self, a: u8, v: &[bool], p: u16) -> Vec<bool> {
        let top: Vec<bool> = (0..v.len()).map(|x| v[x] && self.game.priorities[x] == p).collect();
        without(v, &attractor(self.game, a, v, &top))
    }
}

fn members(v: &[bool]) -> usize {
    v.iter().filter(|member| **member).count()
}

fn without(v: &[bool], gone: &[bool]) -> Vec<bool> {
    v.iter().zip(gone).map(|(member, out)| *member && !*out).collect()
}
