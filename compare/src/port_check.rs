//! The port against the rules: number, place, count, and every lent word afterwards.

mod claims;
mod loops;
pub mod mending;
mod refusals;

use crate::compare::{same, Want};
use crate::game::{won_by, words_of, Game};
use crate::generate::Numbers;
use crate::port::{self, Lent};
use crate::reference::attractor::{attractor, distances, entries, entries_hold, looks};
use crate::reference::tables::{set_words, work_words};
use crate::reference::{compaction, Answer};

pub use refusals::boundaries;

/// Compares every door on an accepted game of any size; how many solvers had their strategies checked.
pub fn compare(game: &Game, want: &Want) -> Result<u64, String> {
    let before = game.clone();
    same("port: check_tables", &Answer::yes(0), &port::check_tables(game))?;
    let winners = want.winners.as_deref();
    let zielonka = solver("port: zielonka", port::zielonka, game, winners, want.calls)?;
    chosen("port: zielonka's entries", &want.zielonka_entries, &zielonka)?;
    let promotion = solver("port: priority_promotion", port::priority_promotion, game, winners, want.rounds)?;
    chosen("port: priority_promotion's entries", &want.promotion_entries, &promotion)?;
    opinion(game, winners, &[&zielonka, &promotion])?;
    solitaire(game, want)?;
    loops::compare(game, want.solitaire.as_deref())?;
    compact(game)?;
    let mut numbers = Numbers::new(game.targets.iter().fold(game.n() as u64, |sum, w| sum.wrapping_mul(31) + *w as u64));
    for player in [0, 1] {
        attract(game, player, &mut numbers)?;
    }
    let claims: Vec<Lent> = [zielonka, promotion].into_iter().flatten().collect();
    for solved in &claims {
        claims::compare(game, solved, &mut numbers)?;
    }
    refusals::compare(game, &mut numbers)?;
    same("port: lent tables", &before, game)?;
    Ok(claims.len() as u64)
}

type Door = fn(&Game, u64, &mut Lent) -> Answer;

/// A solver with the budget it needs, with the largest one, and with one too little; the claim it makes. Where nobody counted
/// what it needs it first gets what it can use up in good time; if that is too little there is no claim.
fn solver(name: &str, door: Door, game: &Game, winners: Option<&[u8]>, counted: Option<u64>) -> Result<Option<Lent>, String> {
    let mut claim = Lent::junk(game);
    let Some(needed) = counted else {
        let budget = 2_000_000_000 / (1 + game.n() + game.m()) as u64;
        let got = door(game, budget, &mut claim);
        return match got.number {
            13 => too_little(name, game, budget, got, &claim).map(|()| None),
            _ => solver(name, door, game, winners, Some(got.count)),
        };
    };
    same(name, &Answer::yes(needed), &door(game, needed, &mut claim))?;
    if let Some(winners) = winners {
        same(&format!("{name}, Even's set"), &won_by(winners, 0), &claim.even)?;
        same(&format!("{name}, Odd's set"), &won_by(winners, 1), &claim.odd)?;
    }
    zeroed(name, game, &claim)?;

    let mut lent = Lent::junk(game);
    same(name, &Answer::yes(needed), &door(game, u64::MAX, &mut lent))?;
    same(&format!("{name}, the largest budget"), &outputs(&claim), &outputs(&lent))?;
    zeroed(name, game, &lent)?;
    if needed > 0 {
        let mut lent = Lent::junk(game);
        let got = door(game, needed - 1, &mut lent);
        too_little(name, game, needed - 1, got, &lent)?;
    }
    Ok(Some(claim))
}

/// The strategy handed out is the one that A4 fixes, where the plain reference came to it.
fn chosen(name: &str, entries: &Option<Vec<u16>>, claim: &Option<Lent>) -> Result<(), String> {
    match (entries, claim) {
        (Some(entries), Some(claim)) => same(name, entries, &claim.strategy),
        _ => Ok(()),
    }
}

/// 13 with the budget as count, outputs as they were, the work area zeroed.
fn too_little(name: &str, game: &Game, budget: u64, got: Answer, lent: &Lent) -> Result<(), String> {
    same(&format!("{name}, short budget"), &Answer { number: 13, place: 0, count: budget }, &got)?;
    same(&format!("{name}, outputs kept"), &outputs(&Lent::junk(game)), &outputs(lent))?;
    zeroed(name, game, lent)
}

/// The first W work words are zero, those beyond as they were.
fn zeroed(name: &str, game: &Game, lent: &Lent) -> Result<(), String> {
    let mut want = Lent::junk(game).work;
    want[..work_words(game.n(), game.m())].fill(0);
    if want == lent.work {
        return Ok(());
    }
    let at = want.iter().zip(&lent.work).position(|(want, got)| want != got);
    Err(format!("{name}: work word {at:?} is not as it has to be"))
}

/// All that is lent but the work area.
fn outputs(lent: &Lent) -> Lent {
    Lent { work: Vec::new(), ..lent.clone() }
}

/// The second opinion against the winners and against both other solvers of the port; with a word too few it is refused.
fn opinion(game: &Game, winners: Option<&[u8]>, others: &[&Option<Lent>]) -> Result<(), String> {
    let words = work_words(game.n(), game.m()) + 2_064 * set_words(game.n());
    let (mut lent, mut work) = (Lent::junk(game), vec![0xfeed_feed_feed_feed; words + 3]);
    same("port: quasi_polynomial", &Answer::yes(0), &port::quasi_polynomial(game, &mut lent, &mut work))?;
    if let Some(winners) = winners {
        same("port: quasi_polynomial, Even's set", &won_by(winners, 0), &lent.even)?;
        same("port: quasi_polynomial, Odd's set", &won_by(winners, 1), &lent.odd)?;
    }
    for other in others.iter().copied().flatten() {
        same("port: quasi_polynomial and another solver, Even's set", &other.even, &lent.even)?;
        same("port: quasi_polynomial and another solver, Odd's set", &other.odd, &lent.odd)?;
    }
    let zeros = work.iter().take_while(|word| **word == 0).count();
    same("port: quasi_polynomial, work words zero", &words, &zeros)?;
    same("port: quasi_polynomial, words beyond", &vec![0xfeed_feed_feed_feed; 3], &work[words..].to_vec())?;
    let mut short = Lent::junk(game);
    same("port: quasi_polynomial, short work", &Answer::no(10, 0), &port::quasi_polynomial(game, &mut short, &mut work[..words - 1]))?;
    same("port: quasi_polynomial, nothing written", &Lent::junk(game), &short)
}

fn solitaire(game: &Game, want: &Want) -> Result<(), String> {
    let mut lent = Lent::junk(game);
    let got = port::solitaire(game, &mut lent);
    match &want.solitaire {
        Some(set) => {
            same("port: solitaire", &Answer::yes(0), &got)?;
            same("port: solitaire set", &words_of(set), &lent.even)?;
            zeroed("port: solitaire", game, &lent)
        }
        None => {
            same("port: solitaire, two owners", &Answer::no(11, 0), &got)?;
            same("port: solitaire, nothing written", &Lent::junk(game), &lent)
        }
    }
}

fn compact(game: &Game) -> Result<(), String> {
    let mut lent = Lent::junk(game);
    same("port: compact", &Answer::yes(0), &port::compact(game, &mut lent))?;
    same("port: new priorities", &compaction::compact(game), &lent.strategy)?;
    same("port: kept numbers of the new priorities", &port::fresh(&lent.strategy), &lent.new_kept)
}

/// A random target in a random V, then the same with a bit where none may be.
fn attract(game: &Game, player: u8, numbers: &mut Numbers) -> Result<(), String> {
    let within: Vec<bool> = (0..game.n()).map(|_| !numbers.one_in(5)).collect();
    let target: Vec<bool> = within.iter().map(|inside| *inside && numbers.one_in(4)).collect();
    let result = attractor(game, player, &within, &target);
    let (within_words, target_words) = (words_of(&within), words_of(&target));
    let mut lent = Lent::junk(game);
    let got = port::attractor(game, player, &within_words, &target_words, &mut lent);
    same("port: attractor", &Answer::yes(looks(game, &result)), &got)?;
    same("port: attractor's set", &words_of(&result), &lent.even)?;
    same("port: attractor's V kept", &words_of(&within), &within_words)?;
    same("port: attractor's target kept", &words_of(&target), &target_words)?;
    zeroed("port: attractor", game, &lent)?;
    let wanted = distances(game, player, &within, &target);
    same("port: attractor's distances", &wanted, &lent.distances)?;
    same("port: attractor's entries", &entries(game, player, &target, &wanted), &lent.strategy)?;
    if !entries_hold(game, player, &within, &target, &result, &lent.strategy) {
        return Err(format!("port: attractor's entries {:?}", lent.strategy));
    }
    refusals::stray_bit(game, player, &within_words, &target_words, numbers)
}
