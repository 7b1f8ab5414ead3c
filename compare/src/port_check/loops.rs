//! The run from each vertex of a solitaire game, checked by plain code; 46 for each vertex outside the set.

use crate::compare::same;
use crate::game::Game;
use crate::port::{show_loop, Lists};
use crate::reference::tables::work_words;
use crate::reference::Answer;

/// Every vertex of a game with one owner; 11 where the owners differ.
pub fn compare(game: &Game, set: Option<&[bool]>) -> Result<(), String> {
    let Some(set) = set else {
        return refused("two owners", game, u64::MAX, Lists::junk(game), Answer::no(11, 0));
    };
    let mut work = Lists::junk(game).work;
    for (v, won) in set.iter().enumerate() {
        let name = format!("port: loop from {v}");
        // the work area is junk for the first vertex, and what the last call left for the others
        let mut lists = Lists { work, ..Lists::junk_lists(game) };
        let got = show_loop(game, v as u64, &mut lists);
        match won {
            true => run(game, v, &got, &lists).map_err(|what| format!("{name}: {what}"))?,
            false => {
                same(&name, &Answer::no(46, v), &got)?;
                same(&format!("{name}, lists kept"), &kept(&Lists::junk_lists(game)), &kept(&lists))?;
            }
        }
        let (cleared, beyond) = lists.work.split_at(work_words(game.n(), game.m()));
        same(&format!("{name}, work cleared"), &true, &cleared.iter().all(|word| *word == 0))?;
        same(&format!("{name}, work beyond"), &[0xfeed_feed_feed_feed; 3][..], beyond)?;
        work = lists.work;
    }
    for vertex in [game.n() as u64, u64::MAX] {
        refused("no such vertex", game, vertex, Lists::junk(game), Answer::no(44, vertex as usize))?;
    }
    if game.n() > 0 {
        let short = |list: Vec<u16>| list[..2 * game.n() - 1].to_vec();
        let lists = Lists::junk(game);
        refused("short path", game, 0, Lists { path: short(lists.path.clone()), ..lists.clone() }, Answer::no(45, 0))?;
        refused("short cycle", game, 0, Lists { cycle: short(lists.cycle.clone()), ..lists }, Answer::no(45, 0))?;
    }
    Ok(())
}

/// A refusal that leaves all but the path's length, which is 0.
fn refused(name: &str, game: &Game, vertex: u64, before: Lists, want: Answer) -> Result<(), String> {
    let mut lists = before.clone();
    same(&format!("port: loop, {name}"), &want, &show_loop(game, vertex, &mut lists))?;
    same(&format!("port: loop, {name}, nothing written"), &Lists { path_length: 0, ..before }, &lists)
}

/// Both lists and the path's length where nothing was found.
fn kept(lists: &Lists) -> (Vec<u16>, Vec<u16>) {
    (lists.path.clone(), lists.cycle.clone())
}

/// What was written is a run from v, and the rest of both lists stayed.
fn run(game: &Game, v: usize, got: &Answer, lists: &Lists) -> Result<(), String> {
    let junk = Lists::junk_lists(game);
    let length = lists.path_length as usize;
    let round = (got.count as usize).checked_sub(length).ok_or("the count is below the path's length")?;
    same("the answer", &Answer::yes((length + round) as u64), got)?;
    same("at most 2n vertices", &true, &(length > 0 && round > 0 && length + round <= 2 * game.n()))?;
    let (path, path_rest) = lists.path.split_at(length);
    let (cycle, cycle_rest) = lists.cycle.split_at(round);
    same("the rest of the path's list", &junk.path[length..], path_rest)?;
    same("the rest of the cycle's list", &junk.cycle[round..], cycle_rest)?;

    same("the path's first vertex", &v, &usize::from(path[0]))?;
    same("the path's last vertex", &cycle[0], &path[length - 1])?;
    same("the first vertex at the end", &false, &(round > 1 && cycle[round - 1] == cycle[0]))?;
    let edge = |two: &[u16]| game.edges(usize::from(two[0])).contains(&two[1]);
    same("the path's edges", &true, &path.windows(2).all(edge))?;
    same("the cycle's edges", &true, &cycle.windows(2).all(edge))?;
    same("the edge back", &true, &edge(&[cycle[round - 1], cycle[0]]))?;
    let highest = cycle.iter().map(|u| game.priorities[usize::from(*u)]).max().unwrap_or(0);
    same("the highest priority's parity", &u16::from(game.owners[0]), &(highest % 2))
}
