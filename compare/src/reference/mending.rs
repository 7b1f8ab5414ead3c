//! "Mend an incomplete export", as A10 of document 02 has it.

use super::tables::first_refusal;
use super::Answer;
use crate::game::Game;

/// The mended tables, and the list of what was done.
pub struct Mended {
    pub game: Game,
    pub list: Vec<u16>,
}

/// Drops each edge whose target is not below n, then gives every vertex without an edge a self loop and its owner's losing
/// priority; or the refusal, by 1 to 6 or by 3 where the result has too many edges.
pub fn mend(export: &Game) -> Result<Mended, Answer> {
    if let Some(refusal) = first_refusal(export).filter(|refusal| refusal.number <= 6) {
        return Err(refusal);
    }
    let is_vertex = |target: u16| (target as usize) < export.n();
    let mut game = Game::empty();
    let mut list: Vec<u16> = (0..export.m() as u16).filter(|e| !is_vertex(export.targets[*e as usize])).collect();
    for v in 0..export.n() {
        let (owner, priority) = (export.owners[v], export.priorities[v]);
        let kept: Vec<u16> = export.edges(v).iter().copied().filter(|w| is_vertex(*w)).collect();
        if kept.is_empty() {
            list.extend([v as u16, priority]);
            game.push(owner, if owner == 0 { 1 } else { 0 }, &[v as u16]);
        } else {
            game.push(owner, priority, &kept);
        }
    }
    match game.m() {
        0..=16_384 => Ok(Mended { game, list }),
        _ => Err(Answer::no(3, 0)),
    }
}
