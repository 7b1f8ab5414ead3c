//! "Attractor", "Predecessors" and looks.

use crate::game::{Game, NONE};

/// The smallest set that contains the target, each vertex of the player in V with an edge into it, and each other vertex of V
/// that has an edge inside V and all such edges into it.
pub fn attractor(game: &Game, player: u8, within: &[bool], target: &[bool]) -> Vec<bool> {
    let mut result = target.to_vec();
    loop {
        let mut grown = false;
        for v in 0..game.n() {
            if within[v] && !result[v] && joins(game, player, within, &result, v) {
                result[v] = true;
                grown = true;
            }
        }
        if !grown {
            return result;
        }
    }
}

fn joins(game: &Game, player: u8, within: &[bool], result: &[bool], v: usize) -> bool {
    let inside: Vec<usize> = game.edges(v).iter().map(|w| *w as usize).filter(|w| within[*w]).collect();
    if game.owners[v] == player {
        inside.iter().any(|w| result[*w])
    } else {
        !inside.is_empty() && inside.iter().all(|w| result[*w])
    }
}

/// Each member is taken once and each of its predecessor entries met once: every edge that ends in the result.
pub fn looks(game: &Game, result: &[bool]) -> u64 {
    game.targets.iter().filter(|w| result[**w as usize]).count() as u64
}

/// A4's distances, in rounds: what joins in a round has the round's number; 65,535 outside the result.
pub fn distances(game: &Game, player: u8, within: &[bool], target: &[bool]) -> Vec<u16> {
    let mut far: Vec<u16> = target.iter().map(|inside| if *inside { 0 } else { NONE }).collect();
    for round in 1.. {
        let result: Vec<bool> = far.iter().map(|d| *d != NONE).collect();
        let joins = |v: &usize| within[*v] && !result[*v] && joins(game, player, within, &result, *v);
        let joining: Vec<usize> = (0..game.n()).filter(joins).collect();
        if joining.is_empty() {
            break;
        }
        for v in joining {
            far[v] = round;
        }
    }
    far
}

/// The lowest-numbered target of v in the set; none where there is none.
pub fn lowest_in(game: &Game, set: &[bool], v: usize) -> u16 {
    game.edges(v).iter().copied().filter(|w| set[*w as usize]).min().unwrap_or(NONE)
}

/// The attractor with its entries.
pub fn drawn(game: &Game, player: u8, within: &[bool], target: &[bool]) -> (Vec<bool>, Vec<u16>) {
    let far = distances(game, player, within, target);
    (far.iter().map(|d| *d != NONE).collect(), entries(game, player, target, &far))
}

/// A4's entries: for each vertex of the player in the result outside the target set its lowest-numbered target of least
/// distance; none elsewhere.
pub fn entries(game: &Game, player: u8, target: &[bool], far: &[u16]) -> Vec<u16> {
    let entry = |v: usize| match game.owners[v] == player && far[v] != NONE && !target[v] {
        true => *game.edges(v).iter().min_by_key(|w| (far[**w as usize], **w)).unwrap(),
        false => NONE,
    };
    (0..game.n()).map(entry).collect()
}

/// The entries are as the rule asks: a target in the result for each vertex of the player in the result outside the target
/// set, so that every walk from a member meets the target set within n steps; none elsewhere.
pub fn entries_hold(game: &Game, player: u8, within: &[bool], target: &[bool], result: &[bool], entries: &[u16]) -> bool {
    let n = game.n();
    let chosen = |v: usize| game.owners[v] == player && result[v] && !target[v];
    let lawful = (0..n).all(|v| match chosen(v) {
        true => game.edges(v).contains(&entries[v]) && result[entries[v] as usize],
        false => entries[v] == NONE,
    });
    // Vertices from which every walk meets the target set, grown step by step: n steps have to reach every member.
    let mut sure = target.to_vec();
    let mut grown = lawful;
    while grown {
        grown = false;
        for v in (0..n).filter(|v| result[*v]) {
            let met = match chosen(v) {
                true => sure[entries[v] as usize],
                false => game.edges(v).iter().all(|w| !within[*w as usize] || sure[*w as usize]),
            };
            if met && !sure[v] {
                sure[v] = true;
                grown = true;
            }
        }
    }
    lawful && (0..n).all(|v| !result[v] || sure[v])
}
