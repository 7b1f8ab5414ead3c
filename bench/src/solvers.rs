//! Both solvers on the games of the tables: first what a user meets, the whole time of a call, then the net figures beside what
//! they are to reach.

use compare::game::Game;
use compare::hard::Solver;

use crate::timing::{measure_each, Row};
use crate::{families, figure, mark, milliseconds, targets, SOLVERS};

/// A row's games, the solver, and what was measured; none where the oracle was stopped at the cap.
struct Measured<'a> {
    name: &'a str,
    games: &'a [Game],
    solver: Solver,
    row: Option<Row>,
}

/// Two Markdown tables, one row a family and solver in each; of all families, or of those whose name has the word `only`.
pub fn print(only: Option<&String>) {
    let mut families = families::timed();
    families.retain(|row| only.map_or(true, |word| row.name.contains(word.as_str())));
    let pairs = families.iter().flat_map(|row| SOLVERS.map(|solver| (row.name, row.games.as_slice(), solver)));
    let rows: Vec<Measured> = pairs
        .map(|(name, games, solver)| Measured { name, games, solver, row: measure_each(games, solver) })
        .collect();
    println!("\n## What a user meets\n");
    println!("| family | games | n | m | solver | calls or rounds | Rust ms | port ms | ratio |");
    println!("|---|---|---|---|---|---|---|---|---|");
    rows.iter().for_each(print_whole);
    println!("\n## Without zeroing\n");
    println!("| family | n | solver | zeroing ms | port ms less zeroing | ratio | C program's | at most | |");
    println!("|---|---|---|---|---|---|---|---|---|");
    let missed = rows.iter().filter(|row| print_net(row)).count();
    if cfg!(feature = "port") {
        println!("\n{missed} of {} rows are over.", rows.len());
    }
}

fn print_whole(Measured { name, games, solver, row }: &Measured) {
    let edges = games.iter().map(Game::m).sum::<usize>() / games.len();
    print!("| {name} | {} | {} | {edges} | {} |", games.len(), games[0].n(), solver.name());
    match row {
        Some(row) => {
            let port = row.port.as_ref().map(|port| port.ms);
            let (rust, port) = (milliseconds(Some(row.rust_ms)), milliseconds(port));
            println!(" {} | {rust} | {port} | {} |", row.count, figure(row.ratio(), 3));
        }
        None => println!(" stopped at the cap | - | - | - |"),
    }
}

/// True where the row misses what it is to reach.
fn print_net(Measured { name, games, solver, row }: &Measured) -> bool {
    let n = games[0].n();
    let port = row.as_ref().and_then(|row| row.port.as_ref());
    let ratio = row.as_ref().and_then(Row::net_ratio);
    let at_most = targets::at_most(name, n, *solver);
    let missed = ratio.is_some_and(|ratio| ratio > at_most);
    println!(
        "| {name} | {n} | {} | {} | {} | {} | {} | {at_most:.3} | {} |",
        solver.name(),
        milliseconds(port.map(|port| port.zeroing_ms)),
        milliseconds(port.map(|port| port.net_ms())),
        figure(ratio, 3),
        figure(targets::c_share(name, n, *solver), 3),
        mark(missed),
    );
    missed
}
