//! One game a line, in plain numbers: the fixed list that a program without Rust replays.
//!
//! `n m owners.. priorities.. offsets.. targets.. winners.. calls rounds solitaire..`
//! where solitaire is one 0 or 1 a vertex, or a single `-` where the owners differ.

use crate::compare::{compare, Tally};
use crate::game::{worked, Game};
use crate::generate::{of_shape, three_vertices, two_vertices, Numbers, Shape};
use crate::hard::{climb, Solver};
use crate::oracle::{self, Cap, Outcome};

/// The games of the list: the worked ones, samples of the small ones, random ones and ones made hard, up to 12 vertices. C1
/// is left out: the oracle does not answer it.
pub fn games() -> Vec<Game> {
    let mut games: Vec<Game> = worked().into_iter().map(|(_, game)| game).filter(|game| game.n() > 0).collect();
    games.extend(two_vertices().step_by(29));
    games.extend(three_vertices().step_by(947));
    let mut numbers = Numbers::new(2024);
    for number in 0..320 {
        let n = 1 + number % 12;
        let shape = Shape {
            n,
            most_edges: 1 + number % 4,
            priorities: [2, 3, 4, 6, 9, 256][number % 6],
            reach: if number % 5 == 0 { 2.min(n) } else { n },
            repeats: [2, 4, 9][number % 3],
            owner: [0, 1, 2, 2, 2][number % 5],
        };
        games.push(of_shape(shape, &mut numbers));
    }
    for n in 3..=12 {
        games.extend([Solver::Zielonka, Solver::Promotion].iter().filter_map(|solver| climb(*solver, n, 400, 200, 1).last()));
    }
    games
}

/// The line of a game with the oracle's answers; an error where the oracle and the rules differ.
pub fn line(game: &Game) -> Result<String, String> {
    let cap = Cap::default();
    compare(game, cap, &mut Tally::default())?;
    let zielonka = answer(oracle::zielonka(game, cap))?;
    let promotion = answer(oracle::priority_promotion(game, cap))?;
    let mut fields = vec![game.n().to_string(), game.m().to_string()];
    fields.extend(game.owners.iter().map(u8::to_string));
    for table in [&game.priorities, &game.offsets, &game.targets] {
        fields.extend(table.iter().map(u16::to_string));
    }
    fields.extend(zielonka.winners.iter().map(u8::to_string));
    fields.push(zielonka.count.to_string());
    fields.push(promotion.count.to_string());
    match game.is_solitaire() {
        true => fields.extend(answer(oracle::solitaire(game, cap))?.iter().map(|won| (*won as u8).to_string())),
        false => fields.push("-".to_string()),
    }
    Ok(fields.join(" "))
}

fn answer<T>(outcome: Outcome<T>) -> Result<T, String> {
    match outcome {
        Outcome::Answer(answer) => Ok(answer),
        Outcome::Panicked(message) => Err(message),
        Outcome::Capped => Err("stopped at the cap".to_string()),
    }
}
