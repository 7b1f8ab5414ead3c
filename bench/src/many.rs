//! Many small games one after another, with one work area and one set of outputs: the time a game.

use compare::game::Game;
use compare::hard::Solver;

use crate::timing::{measure, most_words, Port};
use crate::{families, figure, mark, targets, SOLVERS};

const MANY: u64 = 1_000;

/// Two rows a size, as a Markdown table.
pub fn print() {
    println!("\n## Many small games\n");
    println!(
        "| games | W at most | solver | Rust µs each | port µs each | of it zeroing | ratio | less zeroing | at most | |"
    );
    println!("|---|---|---|---|---|---|---|---|---|---|");
    for n in [40, 200] {
        let games: Vec<Game> = (0..MANY).map(|k| families::random(n, k)).collect();
        SOLVERS.iter().for_each(|solver| print_row(n, &games, *solver));
    }
}

fn print_row(n: usize, games: &[Game], solver: Solver) {
    let row = measure(games, solver).expect("small games stay below the cap");
    let (words, at_most) = (most_words(games), targets::at_most("many", n, solver));
    let micros = |ms: fn(&Port) -> f64| figure(row.port.as_ref().map(|port| 1e3 * ms(port)), 2);
    println!(
        "| {MANY} of {n} vertices | {words} | {} | {:.2} | {} | {} | {} | {} | {at_most:.3} | {} |",
        solver.name(),
        1e3 * row.rust_ms,
        micros(|port| port.ms),
        micros(|port| port.zeroing_ms),
        figure(row.ratio(), 3),
        figure(row.net_ratio(), 3),
        mark(row.net_ratio().is_some_and(|ratio| ratio > at_most)),
    );
}
