//! The second opinion beside Zielonka's recursion: calls of both, of the literal recursion where it ends, and the port's time.

use compare::game::Game;
use compare::reference::{opinion, zielonka};

use crate::{families, milliseconds};

/// The most calls that the literal recursion gets, and the most vertices: plain attractors are slow.
const LITERAL: u64 = 200_000;
const SMALL: usize = 100;

/// One row a game, the first of its family, as a Markdown table.
pub fn print() {
    let mut games: Vec<(&str, Game)> =
        families::timed().into_iter().map(|mut row| (row.name, row.games.swap_remove(0))).collect();
    games.push(("100 vertices, 64 priorities", families::hundred()));
    println!("\n## The second opinion\n");
    println!(
        "| family | n | Zielonka's calls | second opinion's | ratio | taken literally | Zielonka ms | second opinion ms |"
    );
    println!("|---|---|---|---|---|---|---|---|");
    for (name, game) in &games {
        let calls = zielonka::solve(game, u64::MAX).expect("no bound on the calls").calls;
        let ours = opinion::solve(game, u64::MAX).expect("no bound on the calls").calls;
        let literal = match game.n() <= SMALL {
            true => opinion::literal(game, LITERAL).map_or(format!("over {LITERAL}"), |told| told.calls.to_string()),
            false => "-".to_string(),
        };
        let (first, second) = times(game).unzip();
        let (first, second) = (milliseconds(first), milliseconds(second));
        let ratio = ours as f64 / calls as f64;
        println!("| {name} | {} | {calls} | {ours} | {ratio:.2} | {literal} | {first} | {second} |", game.n());
    }
}

#[cfg(feature = "port")]
fn times(game: &Game) -> Option<(f64, f64)> {
    use crate::timing::Times;
    use compare::port;
    use compare::reference::tables::{set_words, work_words};
    let mut lent = port::Lent::junk(game);
    let mut work = vec![0; work_words(game.n(), game.m()) + 2_064 * set_words(game.n())];
    let (mut first, mut second) = (Times::new(), Times::new());
    for _ in 0..20 {
        first.time(|| assert_eq!(port::zielonka(game, u64::MAX, &mut lent).number, 0));
        second.time(|| assert_eq!(port::quasi_polynomial(game, &mut lent, &mut work).number, 0));
    }
    Some((first.ms(), second.ms()))
}

#[cfg(not(feature = "port"))]
fn times(_game: &Game) -> Option<(f64, f64)> {
    None
}
