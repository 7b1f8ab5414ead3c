//! `reckonbough dot`: the game as Graphviz text.

use crate::claim::{checked, winner, wrong};
use crate::games;
use crate::input;
use crate::output::Said;
use crate::paritysol::Claim;
use reckonbough::{Game, Player, Run, WorkArea};
use std::collections::BTreeSet;
use std::path::Path;

/// The picture's text. A solution that fails its check is drawn as it is, and that is said.
pub fn file(path: &Path, solution: Option<&Path>, from: Option<u64>) -> Result<Said, String> {
    let game = games::read(path)?;
    let claim = solution.map(|file| Claim::read(file, game.vertices())).transpose()?;
    let run = from.map(|vertex| games::run(path, &game, vertex)).transpose()?;
    let drawing = drawing(&game, claim.as_ref(), &run.as_ref().map_or_else(BTreeSet::new, way));
    if let (Some(file), Some(claim)) = (solution, &claim) {
        if let Err(refused) = checked(&game, claim, &mut WorkArea::new()) {
            return Ok(Said::bad(drawing, wrong(&input::name(file), &game, claim, refused)));
        }
    }
    Ok(Said::good(drawing))
}

/// The edges of a run, by their ends.
fn way(run: &Run) -> BTreeSet<(usize, usize)> {
    let back = run.cycle.last().copied().zip(run.cycle.first().copied());
    run.path.windows(2).chain(run.cycle.windows(2)).map(|two| (two[0], two[1])).chain(back).collect()
}

fn drawing(game: &Game, claim: Option<&Claim>, way: &BTreeSet<(usize, usize)>) -> String {
    let mut text = String::from("digraph game {\n  node [style=filled, fillcolor=white];\n");
    for v in 0..game.vertices() {
        text += &vertex(game, claim, v);
        let choice = claim.and_then(|claim| claim.strategy[v]);
        // of parallel edges the first is marked
        let mut marked = BTreeSet::new();
        for w in game.successors(v).iter().map(|w| usize::from(*w)) {
            let first = marked.insert(w);
            text += &edge((v, w), first && choice == Some(w), first && way.contains(&(v, w)));
        }
    }
    text + "}\n"
}

fn vertex(game: &Game, claim: Option<&Claim>, v: usize) -> String {
    let shape = match game.owner(v) {
        Player::Even => "ellipse",
        Player::Odd => "box",
    };
    let colour = match claim.and_then(|claim| winner(claim, v)) {
        Some(Player::Even) => ", fillcolor=\"#a6cee3\"",
        Some(Player::Odd) => ", fillcolor=\"#fdbf6f\"",
        None => "",
    };
    format!("  {v} [label=\"{v}: {}\", shape={shape}{colour}];\n", game.priority(v))
}

fn edge((v, w): (usize, usize), chosen: bool, on_the_way: bool) -> String {
    let mark = match (chosen, on_the_way) {
        (_, true) => " [style=bold, color=\"#c00000\"]",
        (true, false) => " [style=bold]",
        (false, false) => "",
    };
    format!("  {v} -> {w}{mark};\n")
}
