//! "Solitaire", by cycles: a vertex of exactly p that comes back to itself among vertices of priority at most p.

use crate::game::Game;

/// The vertices that can reach a cycle whose highest priority is of the owner's parity. All owners have to be equal.
pub fn solve(game: &Game) -> Vec<bool> {
    let parity = game.owners.first().map_or(0, |owner| *owner as u16);
    let mut good = vec![false; game.n()];
    for v in (0..game.n()).filter(|v| game.priorities[*v] % 2 == parity) {
        let p = game.priorities[v];
        good[v] = reached(game, v, |w| game.priorities[w] <= p)[v];
    }
    reaching(game, good)
}

/// The vertices that a walk of one edge or more from `v` through `allowed` vertices ends in.
pub fn reached(game: &Game, v: usize, allowed: impl Fn(usize) -> bool) -> Vec<bool> {
    let mut seen = vec![false; game.n()];
    let mut open = vec![v];
    while let Some(u) = open.pop() {
        for w in game.edges(u).iter().map(|w| *w as usize) {
            if allowed(w) && !seen[w] {
                seen[w] = true;
                open.push(w);
            }
        }
    }
    seen
}

/// The vertices from which a walk of any length ends in the set.
fn reaching(game: &Game, mut set: Vec<bool>) -> Vec<bool> {
    loop {
        let more = (0..game.n()).filter(|v| !set[*v] && game.edges(*v).iter().any(|w| set[*w as usize]));
        let more: Vec<usize> = more.collect();
        if more.is_empty() {
            return set;
        }
        more.into_iter().for_each(|v| set[v] = true);
    }
}
