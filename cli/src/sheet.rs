//! `reckonbough sheet`: what a file is and what all engines and the checker say of it.

use crate::claim::{checked, wrong};
use crate::engines::{Ran, Wanted};
use crate::paritysol::Claim;
use crate::{input, refusal};
use reckonbough::{Game, Player, Refusal, Solved, WorkArea};
use sha2::{Digest, Sha256};
use std::io::{self, Read};
use std::path::Path;

/// What a file came to.
#[derive(Clone, Copy, PartialEq)]
pub enum Outcome {
    Passed,
    Unreadable,
    Refused,
    OverBudget,
    Disagree,
    FailedCheck,
}

/// What and how, a row each.
pub type Rows = Vec<(&'static str, String)>;

/// A file's part of the sheet.
pub struct Part {
    pub name: String,
    pub rows: Rows,
    pub outcome: Outcome,
}

pub fn file(path: &Path, budget: u64, work: &mut WorkArea) -> Part {
    let name = input::name(path);
    let (text, hash) = match read(path) {
        Ok(read) => read,
        Err(error) => {
            let rows = vec![("not read", input::unreadable(path, &error))];
            return Part { name, rows, outcome: Outcome::Unreadable };
        }
    };
    let mut rows = vec![("SHA-256", hash)];
    let outcome = match Game::read(&text) {
        Ok(game) => facts(&name, &game, budget, work, &mut rows),
        Err(refused) => {
            rows.push(("refused", refusal::of_text(&name, &text, refused)));
            Outcome::Refused
        }
    };
    Part { name, rows, outcome }
}

/// As much of the text as the library reads, and the SHA-256 of the whole.
fn read(path: &Path) -> io::Result<(Vec<u8>, String)> {
    let mut source = input::open(path)?;
    let text = input::front(&mut source)?;
    let mut hash = Sha256::new();
    hash.update(&text);
    let mut rest = vec![0; 1 << 16];
    loop {
        match source.reader.read(&mut rest) {
            Ok(0) => break,
            Ok(length) => hash.update(&rest[..length]),
            Err(error) if error.kind() == io::ErrorKind::Interrupted => {}
            Err(error) => return Err(error),
        }
    }
    let hash = hash.finalize().iter().map(|byte| format!("{byte:02x}")).collect();
    Ok((text, hash))
}

fn facts(name: &str, game: &Game, budget: u64, work: &mut WorkArea, rows: &mut Rows) -> Outcome {
    let ran = Ran::on(game, Wanted::named("all", budget), work);
    rows.push(("vertices", game.vertices().to_string()));
    rows.push(("edges", game.edges().to_string()));
    rows.push(("priorities", format!("{} different", different(game))));
    let won = |odd: &bool| if *odd { Player::Odd } else { Player::Even };
    let first = ran.odd().and_then(|odd| odd.first()).map(won);
    rows.push(("vertex 0", first.map_or_else(|| "not known".into(), |player| format!("won by {player:?}"))));
    rows.push(("calls", counted(&ran.zielonka)));
    rows.push(("rounds", counted(&ran.promotion)));
    rows.push(("engines", agreement(&ran).into()));
    let answers = [("Zielonka", &ran.zielonka), ("promotion", &ran.promotion)];
    let good = answers.map(|(engine, given)| strategy((name, game), (engine, given), work, rows));
    match good {
        _ if !ran.agree() => Outcome::Disagree,
        good if good.contains(&Some(false)) => Outcome::FailedCheck,
        good if good.contains(&Some(true)) => Outcome::Passed,
        _ => Outcome::OverBudget,
    }
}

/// How many different priorities there are, as the record keeps it.
fn different(game: &Game) -> u64 {
    game.kept().get(256).copied().unwrap_or(0)
}

fn counted(given: &Option<Result<Solved, Refusal>>) -> String {
    match given {
        Some(Ok(solved)) => solved.count.to_string(),
        Some(Err(refused)) => format!("none: {refused}"),
        None => "not run".into(),
    }
}

fn agreement(ran: &Ran) -> &'static str {
    let all = [&ran.zielonka, &ran.promotion].iter().all(|given| matches!(given, Some(Ok(_))));
    match (ran.agree(), all) {
        (false, _) => "DIFFERENT WINNERS",
        (true, true) => "all three agree",
        (true, false) => "those that answered agree",
    }
}

/// Has the checker check an engine's strategy; whether it says yes, where there is one.
fn strategy(
    (name, game): (&str, &Game),
    (engine, given): (&str, &Option<Result<Solved, Refusal>>),
    work: &mut WorkArea,
    rows: &mut Rows,
) -> Option<bool> {
    let solved = match given {
        Some(Ok(solved)) => solved,
        _ => {
            rows.push(("checked", format!("{engine}: no strategy")));
            return None;
        }
    };
    let claim = Claim::of(solved);
    let answer = checked(game, &claim, work);
    let said = match answer {
        Ok(()) => "yes".into(),
        Err(refused) => format!("NO, {}", wrong(name, game, &claim, refused)),
    };
    rows.push(("checked", format!("{engine}: {said}")));
    Some(answer.is_ok())
}
