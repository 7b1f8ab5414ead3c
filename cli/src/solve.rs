//! `reckonbough solve`: a line a file.

use crate::engines::{column, Ran, Wanted};
use crate::output::Said;
use crate::paritysol::Claim;
use crate::{input, refusal};
use reckonbough::{Game, WorkArea};
use std::fs;
use std::path::{Path, PathBuf};

pub struct Options {
    pub wanted: Wanted,
    pub strategy: bool,
    pub solution: Option<PathBuf>,
}

/// The line of one file, and what is to be said of it.
pub fn file(path: &Path, options: &Options, work: &mut WorkArea) -> Said {
    let name = input::name(path);
    let text = match input::read(path) {
        Ok(text) => text,
        Err(why) => return Said::bad(format!("{name} unreadable\n"), why),
    };
    match Game::read(&text) {
        Ok(game) => answer(&name, &Ran::on(&game, options.wanted, work), options),
        Err(refused) => {
            let (number, place) = refused.number_and_place();
            Said::bad(format!("{name} refused {number} {place}\n"), refusal::of_text(&name, &text, refused))
        }
    }
}

fn answer(name: &str, ran: &Ran, options: &Options) -> Said {
    if !ran.agree() {
        return Said::bad(format!("{name} disagree\n"), format!("{name}: the engines name different winners"));
    }
    let line = line(name, ran, options.strategy);
    let Wanted { budget, .. } = options.wanted;
    let odd = match ran.odd() {
        Some(odd) => odd,
        None => return Said::bad(line, format!("{name}: the budget of {budget} is too small (13)")),
    };
    let claim = || ran.solved().map_or_else(|| Claim::without_choices(odd), Claim::of);
    match options.solution.as_deref().map(|out| write(out, &claim())) {
        Some(Err(why)) => Said::bad(line, why),
        _ => Said::good(line),
    }
}

fn line(name: &str, ran: &Ran, strategy: bool) -> String {
    let winners = ran.odd().map_or_else(|| "-".into(), winners);
    let mut line = format!("{name} {winners} {} {}", column(&ran.zielonka), column(&ran.promotion));
    if strategy {
        let entry = |choice: &Option<usize>| choice.map_or_else(|| "-".into(), |target| target.to_string());
        let entries = |choices: &[Option<usize>]| choices.iter().map(entry).collect::<Vec<String>>().join(",");
        line += &format!(" {}", ran.solved().map_or_else(|| ".".into(), |solved| entries(&solved.strategy)));
    }
    line + "\n"
}

fn winners(odd: &[bool]) -> String {
    odd.iter().map(|odd| if *odd { '1' } else { '0' }).collect()
}

fn write(out: &Path, claim: &Claim) -> Result<(), String> {
    fs::write(out, claim.text()).map_err(|error| format!("{}: the file cannot be written: {error}", input::name(out)))
}
