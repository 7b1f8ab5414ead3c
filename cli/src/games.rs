//! The verbs that take one game: check, compact, mend, edit and loop.

use crate::claim::{checked, wrong};
use crate::output::Said;
use crate::paritysol::Claim;
use crate::{input, refusal};
use reckonbough::{Edit, Export, Game, Run, WorkArea};
use std::path::Path;

/// The game in the file, or a sentence that says why there is none.
pub fn read(path: &Path) -> Result<Game, String> {
    let text = input::read(path)?;
    Game::read(&text).map_err(|refused| refusal::of_text(&input::name(path), &text, refused))
}

/// What came of it; a sentence where there is nothing to print.
pub fn said(given: Result<Said, String>) -> Said {
    given.unwrap_or_else(|why| Said::bad("", why))
}

pub fn check(path: &Path, solution: &Path) -> Result<Said, String> {
    let name = input::name(path);
    let game = read(path)?;
    let claim = Claim::read(solution, game.vertices())?;
    Ok(match checked(&game, &claim, &mut WorkArea::new()) {
        Ok(()) => Said::good(format!("{name} yes\n")),
        Err(refused) => {
            let (number, place) = refused.number_and_place();
            let why = wrong(&input::name(solution), &game, &claim, refused);
            Said::bad(format!("{name} no {number} {place}\n"), why)
        }
    })
}

pub fn compact(path: &Path) -> Result<Said, String> {
    let game = read(path)?;
    let tables = game.tables();
    let (owners, offsets, targets) = (tables.owners.to_vec(), tables.offsets.to_vec(), tables.targets.to_vec());
    let compacted = game.compact().and_then(|priorities| Game::from_tables(owners, priorities, offsets, targets));
    written(path, &compacted.map_err(|refused| format!("{}: {refused}", input::name(path)))?)
}

pub fn mend(path: &Path) -> Result<Said, String> {
    let name = input::name(path);
    let text = input::read(path)?;
    let export = Export::read(&text).map_err(|refused| refusal::of_text(&name, &text, refused))?;
    let tables = export.tables();
    let mended = Game::mend(tables).map_err(|refused| refusal::of_tables(&name, tables, refused))?;
    let mut said = written(path, &mended.game)?;
    for edge in &mended.dropped {
        let target = tables.targets.get(*edge).map_or(0, |target| u64::from(*target));
        said.err
            .push(format!("{name}: edge {} is dropped: it ends at no vertex", refusal::ends(tables, *edge, target)));
    }
    for (vertex, old) in &mended.altered {
        let new = mended.game.priority(*vertex);
        said.err.push(format!(
            "{name}: vertex {vertex} had no edge left: a self loop, and priority {new} instead of {old}"
        ));
    }
    Ok(said)
}

pub fn edit(path: &Path, edits: &[Edit]) -> Result<Said, String> {
    let mut game = read(path)?;
    for edit in edits {
        game.edit(*edit).map_err(|refused| refusal::of_edit(&input::name(path), &game, *edit, refused))?;
    }
    written(path, &game)
}

pub fn show_loop(path: &Path, vertex: u64) -> Result<Said, String> {
    let game = read(path)?;
    Ok(Said::good(shown(&run(path, &game, vertex)?) + "\n"))
}

/// The run from the vertex, or a sentence that says why there is none.
pub fn run(path: &Path, game: &Game, vertex: u64) -> Result<Run, String> {
    // a number that is too large for this machine is no vertex either
    let asked = usize::try_from(vertex).unwrap_or(usize::MAX);
    game.show_loop(asked).map_err(|refused| refusal::of_loop(&input::name(path), game, refused))
}

/// The path, and the cycle in brackets with its first vertex once more.
fn shown(run: &Run) -> String {
    let arrows = |vertices: &[usize]| vertices.iter().map(|v| format!("{v} → ")).collect::<String>();
    let before = run.path.split_last().map_or(&[][..], |(_, before)| before);
    let first = run.cycle.first().map_or(String::new(), |v| v.to_string());
    format!("{}({}{first})", arrows(before), arrows(&run.cycle))
}

fn written(path: &Path, game: &Game) -> Result<Said, String> {
    game.write().map(Said::good).map_err(|refused| format!("{}: {refused}", input::name(path)))
}
