//! Winning by demand 2's definition, for games of at most 6 vertices: every choice of one fixed edge for each own vertex is
//! tried, and the cycles that stay reachable are looked at.

use crate::game::Game;

/// The most vertices that are tried.
pub const MOST: usize = 6;

/// The winner of each vertex; an error names a vertex that has none or two.
pub fn winners(game: &Game) -> Result<Vec<u8>, String> {
    assert!(game.n() <= MOST);
    let won = [won_by(game, 0), won_by(game, 1)];
    let one = |v: usize| match (won[0] >> v & 1, won[1] >> v & 1) {
        (1, 0) => Ok(0),
        (0, 1) => Ok(1),
        (0, 0) => Err(format!("vertex {v} has no winner")),
        _ => Err(format!("vertex {v} has two winners")),
    };
    (0..game.n()).map(one).collect()
}

/// Bit v: the player has a choice of fixed edges so that every cycle reachable from v has a highest priority of its parity.
fn won_by(game: &Game, player: u8) -> u32 {
    let own: Vec<usize> = (0..game.n()).filter(|v| game.owners[*v] == player).collect();
    let mut choice = vec![0; own.len()];
    let mut won = 0;
    loop {
        won |= safe(game, player, &edges_kept(game, &own, &choice));
        if !next_choice(game, &own, &mut choice) {
            return won;
        }
    }
}

/// Counts through the choices; false after the last one.
fn next_choice(game: &Game, own: &[usize], choice: &mut [usize]) -> bool {
    for (v, edge) in own.iter().zip(choice) {
        *edge += 1;
        if *edge < game.edges(*v).len() {
            return true;
        }
        *edge = 0;
    }
    false
}

/// For each vertex the set of targets left: the chosen one for own vertices, all for the others.
fn edges_kept(game: &Game, own: &[usize], choice: &[usize]) -> Vec<u32> {
    let bits = |targets: &[u16]| targets.iter().fold(0, |set, w| set | 1 << w);
    let mut kept: Vec<u32> = (0..game.n()).map(|v| bits(game.edges(v))).collect();
    for (v, edge) in own.iter().zip(choice) {
        kept[*v] = 1 << game.edges(*v)[*edge];
    }
    kept
}

/// The vertices that reach no cycle whose highest priority has the other parity.
fn safe(game: &Game, player: u8, kept: &[u32]) -> u32 {
    let all = (1 << game.n()) - 1;
    let mut bad = 0;
    for v in (0..game.n()).filter(|v| game.priorities[*v] % 2 != player as u16) {
        let low = (0..game.n()).filter(|w| game.priorities[*w] <= game.priorities[v]).fold(0, |set, w| set | 1 << w);
        bad |= reached(kept, v, low) & 1 << v;
    }
    (0..game.n()).filter(|v| (reached(kept, *v, all) | 1 << v) & bad == 0).fold(0, |set, v| set | 1 << v)
}

/// The ends of walks of one edge or more from v inside `allowed`.
fn reached(kept: &[u32], v: usize, allowed: u32) -> u32 {
    let mut seen = kept[v] & allowed;
    loop {
        let next = (0..kept.len()).filter(|w| seen >> w & 1 == 1).fold(seen, |set, w| set | kept[w] & allowed);
        if next == seen {
            return seen;
        }
        seen = next;
    }
}
