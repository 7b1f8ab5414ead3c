//! library STEP FILE: what the command's time is held against, the same work by the library alone. STEP is `start` for nothing,
//! `read` for reading the file, `solve` for reading it and solving it by both engines in one work area; then it prints calls and
//! rounds. A process of its own, as the command is, so that the memory is fresh in both.
#![forbid(unsafe_code)]

use reckonbough::{Game, WorkArea};
use std::{env, error, fs};

const BUDGET: u64 = 65_536;

fn main() -> Result<(), Box<dyn error::Error>> {
    let words: Vec<String> = env::args().skip(1).collect();
    let (step, file) = match &words[..] {
        [step, file] => (step.as_str(), file),
        _ => return Err("name a step and a file".into()),
    };
    if step == "start" {
        return Ok(());
    }
    let game = Game::read(&fs::read(file)?)?;
    if step == "read" {
        return Ok(());
    }
    let mut work = WorkArea::new();
    let calls = game.solve_zielonka_in(BUDGET, &mut work)?.count;
    let rounds = game.solve_priority_promotion_in(BUDGET, &mut work)?.count;
    println!("{calls} {rounds}");
    Ok(())
}
