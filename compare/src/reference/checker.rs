//! The checker: yes, or kinds 21 to 24, with 25 in the place of 22 where every entry is none.

use super::solitaire::reached;
use super::tables::set_words;
use super::Answer;
use crate::game::{Game, NONE};

/// The answer on a total game, with sets of s words and a strategy of n entries.
pub fn check(game: &Game, even: &[u64], odd: &[u64], strategy: &[u16]) -> Answer {
    let n = game.n();
    let has = |set: &[u64], b: usize| set[b / 64] >> (b % 64) & 1 == 1;
    let split = |b: usize| if b < n { has(even, b) != has(odd, b) } else { !has(even, b) && !has(odd, b) };
    if let Some(b) = (0..64 * set_words(n)).find(|b| !split(*b)) {
        return Answer::no(21, b);
    }

    let winners: Vec<u8> = (0..n).map(|v| has(odd, v) as u8).collect();
    let own = |v: usize| game.owners[v] == winners[v];
    let chosen = |v: usize| if own(v) { game.edges(v).contains(&strategy[v]) } else { strategy[v] == NONE };
    if let Some(v) = (0..n).find(|v| !chosen(*v)) {
        return Answer::no(if strategy.iter().all(|entry| *entry == NONE) { 25 } else { 22 }, v);
    }

    let kept = kept_edges(game, &winners, strategy);
    let stays = |v: usize| kept.edges(v).iter().all(|w| winners[*w as usize] == winners[v]);
    if let Some(v) = (0..n).find(|v| !stays(*v)) {
        return Answer::no(23, v);
    }
    match on_lost_cycle(&kept, &winners).iter().position(|lost| *lost) {
        Some(v) => Answer::no(24, v),
        None => Answer::yes(0),
    }
}

/// The strategy edge of a winner's own vertex, every edge of a loser's vertex.
fn kept_edges(game: &Game, winners: &[u8], strategy: &[u16]) -> Game {
    let mut kept = Game::empty();
    for v in 0..game.n() {
        let own = game.owners[v] == winners[v];
        let edges = if own { &strategy[v..v + 1] } else { game.edges(v) };
        kept.push(game.owners[v], game.priorities[v], edges);
    }
    kept
}

/// The vertices on a cycle whose highest priority has the parity of the player who is said to lose there. Every kept edge
/// stays inside its set, so a cycle has one winner.
fn on_lost_cycle(kept: &Game, winners: &[u8]) -> Vec<bool> {
    let mut found = vec![false; kept.n()];
    let back = turned(kept);
    for u in (0..kept.n()).filter(|u| kept.priorities[*u] % 2 != winners[*u] as u16) {
        let allowed = |w: usize| kept.priorities[w] <= kept.priorities[u];
        let after = reached(kept, u, allowed);
        if after[u] {
            let before = reached(&back, u, allowed);
            (0..kept.n()).for_each(|v| found[v] |= after[v] && before[v]);
        }
    }
    found
}

/// The same game with every edge turned round.
fn turned(game: &Game) -> Game {
    let mut sources = vec![Vec::new(); game.n()];
    for v in 0..game.n() {
        game.edges(v).iter().for_each(|w| sources[*w as usize].push(v as u16));
    }
    let mut back = Game::empty();
    (0..game.n()).for_each(|v| back.push(game.owners[v], game.priorities[v], &sources[v]));
    back
}
