//! The slip that lost an edge, put into the oracle's predecessor table on purpose (feature drop-repeats): is it noticed, and
//! what do the two solvers then say?

use std::time::Duration;

use crate::compare::{compare, Tally};
use crate::game::Game;
use crate::generate::{random, two_vertices};
use crate::hard::Solver;
use crate::oracle::{Cap, Outcome};
use crate::reference::zielonka;

const SHORT: Cap = Cap { messages: 20_000, time: Duration::from_secs(1) };

/// 0 where the slip is noticed.
pub fn report() -> i32 {
    if !cfg!(feature = "drop-repeats") {
        eprintln!("compare: this build has no slip in it");
        return 2;
    }
    let two = noticed("two vertices", two_vertices());
    let more = noticed("random, up to 30 vertices", (0..20_000).map(random).filter(|game| game.n() <= 30));
    (two == 0 || more == 0) as i32
}

/// Counts the games of each kind and shows a smallest one; how many games the comparison rejects.
fn noticed(name: &str, games: impl Iterator<Item = Game>) -> usize {
    let games: Vec<Game> = games.collect();
    let rejected = games.iter().filter(|game| compare(game, SHORT, &mut Tally::default()).is_err()).count();
    println!("{name}: {} games, noticed on {rejected}", games.len());
    let mut kinds: Vec<(String, usize, &Game)> = Vec::new();
    for game in &games {
        let right = zielonka::solve(game, 1_000_000).expect("small games need few calls").winners;
        let [zielonka, promotion] = [Solver::Zielonka, Solver::Promotion].map(|solver| told(game, solver, &right));
        let kind = format!("Zielonka {zielonka}, promotion {promotion}");
        match kinds.iter_mut().find(|(known, _, _)| *known == kind) {
            Some((_, count, smallest)) => {
                *count += 1;
                *smallest = if (game.n(), game.m()) < (smallest.n(), smallest.m()) { game } else { *smallest };
            }
            None => kinds.push((kind, 1, game)),
        }
    }
    for (kind, count, smallest) in kinds {
        println!("    {kind}: {count}, a smallest being {smallest:?}");
    }
    rejected
}

fn told(game: &Game, solver: Solver, right: &[u8]) -> String {
    match solver.oracle(game, SHORT) {
        Outcome::Answer(solved) if solved.winners == right => "right".to_string(),
        Outcome::Answer(_) => "WRONG".to_string(),
        Outcome::Panicked(message) => format!("panics ({message})"),
        Outcome::Capped => "does not end".to_string(),
    }
}
