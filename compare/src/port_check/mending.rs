//! The mending door against plain mending: number, place, count, and every lent entry afterwards.

use super::refusals::damage;
use crate::compare::same;
use crate::game::Game;
use crate::generate::{self, Numbers};
use crate::port::{self, Outputs};
use crate::reference::mending::{mend, Mended};
use crate::reference::tables::first_refusal;
use crate::reference::Answer;

/// The damaged export of a number; one in eight is damaged so that 1 to 6 may refuse it. Whether it was mended.
pub fn compare(number: u64) -> Result<bool, String> {
    let mut export = generate::damaged(number);
    if number % 8 == 0 && export.n() > 0 && export.m() > 0 {
        export = damage(&export, &mut Numbers::new(number));
    }
    let before = export.clone();
    let mended = match mend(&export) {
        Err(refusal) => {
            let (n, m) = (export.n(), export.m());
            unwritten(&export, refusal, &Outputs::junk(n, n + 1, m + n, m + 2 * n))?;
            false
        }
        Ok(mended) => {
            written(&export, &mended)?;
            too_short(&export, &mended)?;
            same("port: refusal of what was mended", &None, &first_refusal(&mended.game))?;
            written(&mended.game, &Mended { game: mended.game.clone(), list: Vec::new() })?;
            true
        }
    };
    same("port: lent tables", &before, &export)?;
    Ok(mended)
}

/// Outputs of just the length and longer ones: the rest stays.
fn written(export: &Game, mended: &Mended) -> Result<(), String> {
    let Mended { game, list } = mended;
    for more in [0, 1, 5] {
        let mut lent = Outputs::junk(game.n() + more, game.n() + 1 + more, game.m() + more, list.len() + more);
        let mut want = lent.clone();
        want.priorities[..game.n()].copy_from_slice(&game.priorities);
        want.offsets[..game.n() + 1].copy_from_slice(&game.offsets);
        want.targets[..game.m()].copy_from_slice(&game.targets);
        want.list[..list.len()].copy_from_slice(list);
        same("port: mend", &Answer::yes(list.len() as u64), &port::mend(export, &mut lent))?;
        same("port: mend, what was written", &want, &lent)?;
    }
    Ok(())
}

/// Each output one entry shorter than needed, where it needs one.
fn too_short(export: &Game, mended: &Mended) -> Result<(), String> {
    let needed = [mended.game.n(), mended.game.n() + 1, mended.game.m(), mended.list.len()];
    for at in (0..4).filter(|at| needed[*at] > 0) {
        let mut lengths = needed;
        lengths[at] -= 1;
        let [priorities, offsets, targets, list] = lengths;
        unwritten(export, Answer::no(35, 0), &Outputs::junk(priorities, offsets, targets, list))?;
    }
    Ok(())
}

fn unwritten(export: &Game, refusal: Answer, lent: &Outputs) -> Result<(), String> {
    let mut after = lent.clone();
    same("port: mend", &refusal, &port::mend(export, &mut after))?;
    same("port: mend, what a refusal leaves", lent, &after)
}
