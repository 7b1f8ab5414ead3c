//! bench [SVG]: prints every table and writes the plot. bench TABLE: prints that table alone, one of solvers, many, opinion,
//! alone and growth; behind solvers may stand a word that the names of its families have, behind growth where the plot goes.

mod alone;
mod families;
mod growth;
mod layered;
mod many;
mod opinion;
mod plot;
mod solvers;
mod targets;
mod timing;

use compare::hard::Solver;

const SOLVERS: [Solver; 2] = [Solver::Zielonka, Solver::Promotion];

fn main() {
    // The oracle recurses once for each call of the recursion on sets.
    let run = std::thread::Builder::new().stack_size(1 << 30).spawn(bench).expect("a thread can be started");
    run.join().expect("the benchmark ends");
}

fn bench() {
    if !cfg!(feature = "port") {
        println!("The port was NOT timed: its library was not there.");
    }
    let arguments: Vec<String> = std::env::args().skip(1).collect();
    match arguments.first().map(String::as_str) {
        Some("solvers") => solvers::print(arguments.get(1)),
        Some("many") => many::print(),
        Some("opinion") => opinion::print(),
        Some("alone") => alone::print(),
        Some("growth") => growth::print(arguments.get(1)),
        _ => {
            solvers::print(None);
            many::print();
            opinion::print();
            alone::print();
            growth::print(arguments.first());
        }
    }
}

/// A figure of a table, or a dash where there is none.
fn figure(value: Option<f64>, digits: usize) -> String {
    value.map_or("-".to_string(), |value| format!("{value:.digits$}"))
}

/// Milliseconds with three digits that count, or a dash.
fn milliseconds(value: Option<f64>) -> String {
    let digits = match value {
        Some(ms) if ms < 0.01 => 5,
        Some(ms) if ms < 0.1 => 4,
        _ => 3,
    };
    figure(value, digits)
}

/// What stands behind a figure and its limit.
fn mark(missed: bool) -> &'static str {
    if missed {
        "**over**"
    } else {
        ""
    }
}
