//! Games outside the compared domain, and what the oracle does with them. Run in a release and in a debug build.

use std::fmt::Debug;
use std::time::Duration;

use crate::game::{worked, Game};
use crate::oracle::{self, Cap, Outcome};

/// One line for each game and solver.
pub fn report() -> Vec<String> {
    let mut lines = vec![format!("debug assertions: {}", if cfg!(debug_assertions) { "on" } else { "off" })];
    for (name, game) in inputs() {
        lines.push(format!("{name}: Zielonka {}", told(oracle::zielonka(&game, SHORT))));
        lines.push(format!("{name}: promotion {}", told(oracle::priority_promotion(&game, SHORT))));
        lines.push(format!("{name}: solitaire {}", told(oracle::solitaire(&game, SHORT))));
    }
    if !cfg!(debug_assertions) {
        for n in [1, 64, 65] {
            let mut game = Game::empty();
            (0..n).for_each(|v| game.push(0, 0, &[v]));
            lines.push(format!("{n} vertices E0 with self loops: raw words of the sets {:x?}", oracle::raw_words(&game)));
        }
    }
    lines
}

const SHORT: Cap = Cap { messages: 100_000, time: Duration::from_secs(2) };

fn inputs() -> Vec<(String, Game)> {
    let mut inputs: Vec<(String, Game)> = worked().into_iter().map(|(name, game)| (name.to_string(), game)).collect();
    let others = [
        ("parallel edges, E0->0,0", Game::new(&[(0, 0, &[0, 0])])),
        ("dead end, E0->", Game::new(&[(0, 0, &[])])),
        ("dead end, O0->", Game::new(&[(1, 0, &[])])),
        ("dead end, E1->", Game::new(&[(0, 1, &[])])),
        ("dead end, O1->", Game::new(&[(1, 1, &[])])),
        ("dead end below, O0->1; E2->", Game::new(&[(1, 0, &[1]), (0, 2, &[])])),
        ("two owners, E0->0; O0->1", Game::new(&[(0, 0, &[0]), (1, 0, &[1])])),
        ("target not below n, E0->1", Game::new(&[(0, 0, &[1])])),
        ("priority 256, E256->0", Game::new(&[(0, 256, &[0])])),
    ];
    inputs.extend(others.into_iter().map(|(name, game)| (name.to_string(), game)));
    inputs
}

fn told<T: Debug>(outcome: Outcome<T>) -> String {
    match outcome {
        Outcome::Answer(answer) => format!("answers {answer:?}"),
        Outcome::Panicked(message) => format!("panics: {message}"),
        Outcome::Capped => "does not end (stopped at the cap)".to_string(),
    }
}
