//! The checker's door: right claims, the same without entries, and claims damaged in many ways.

use super::zeroed;
use crate::compare::same;
use crate::game::{Game, NONE};
use crate::generate::Numbers;
use crate::port::{self, Lent};
use crate::reference::{checker, Answer};

/// A solver's claim gets a yes from the checker of the rules and from the port's own; a copy without entries and damaged copies,
/// with entries and without, get the same from both.
pub fn compare(game: &Game, solved: &Lent, numbers: &mut Numbers) -> Result<(), String> {
    let right = Lent { work: Lent::junk(game).work, ..solved.clone() };
    let by_the_rules = checker::check(game, &right.even, &right.odd, &right.strategy);
    same(&format!("port: a solver's strategy {:?}", right.strategy), &Answer::yes(0), &by_the_rules)?;
    claim(game, &right)?;
    claim(game, &without_entries(&right))?;
    for _ in 0..8 {
        let mut damaged = right.clone();
        for _ in 0..numbers.between(1, 2) {
            damage(game, &mut damaged, numbers);
        }
        claim(game, &damaged)?;
        claim(game, &without_entries(&damaged))?;
    }
    Ok(())
}

/// The same sets, with none in every entry.
fn without_entries(claim: &Lent) -> Lent {
    Lent { strategy: vec![NONE; claim.strategy.len()], ..claim.clone() }
}

fn damage(game: &Game, claim: &mut Lent, numbers: &mut Numbers) {
    if game.n() == 0 {
        return;
    }
    let v = numbers.below(game.n());
    match numbers.below(5) {
        0 => claim.even[v / 64] ^= 1 << numbers.below(64),
        1 => {
            claim.even[v / 64] ^= 1 << (v % 64);
            claim.odd[v / 64] ^= 1 << (v % 64);
            let own = game.owners[v] as u64 == claim.odd[v / 64] >> (v % 64) & 1;
            claim.strategy[v] = if own { game.edges(v)[0] } else { NONE };
        }
        2 => claim.strategy[v] = NONE,
        3 => claim.strategy[v] = numbers.below(game.n() + 1) as u16,
        _ => claim.strategy[v] = game.edges(v)[numbers.below(game.edges(v).len())],
    }
}

fn claim(game: &Game, claim: &Lent) -> Result<(), String> {
    let want = checker::check(game, &claim.even, &claim.odd, &claim.strategy);
    let mut lent = claim.clone();
    let got = port::check(game, &mut lent);
    same(&format!("port: check of {:?} {:?} {:?}", claim.even, claim.odd, claim.strategy), &want, &got)?;
    zeroed("port: check", game, &lent)?;
    lent.work.clone_from(&claim.work);
    same("port: check, claim kept", claim, &lent)
}
