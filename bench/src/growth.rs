//! Time against n, for the families that have a game for every n: a plot of it, and a table of the time for each unit of work.

use compare::hard::Solver;

use crate::families::{Family, FAMILIES};
use crate::plot::{self, Line, Panel};
use crate::timing::{measure, Row};
use crate::{figure, SOLVERS};

/// The games of n vertices, measured.
struct Point {
    n: usize,
    row: Row,
}

/// The points of a family, by solver.
type Points = [Vec<Point>; 2];

/// The sizes of the table; the plot has all powers of two from 64 to 4,096.
const SHOWN: [usize; 4] = [64, 256, 1_024, 4_096];

/// Prints the table, and writes the plot where there is a path.
pub fn print(path: Option<&String>) {
    println!("\n## Growth\n");
    println!("| family | solver | work at 4,096 | ns a unit at 64 | at 256 | at 1,024 | at 4,096 | 4,096 beside 64 |");
    println!("|---|---|---|---|---|---|---|---|");
    let panels = FAMILIES.iter().map(|family| {
        let points: Points = SOLVERS.map(|solver| points(family, solver));
        SOLVERS.iter().zip(&points).for_each(|(solver, points)| print_row(family.name, *solver, points));
        Panel { title: family.name, lines: lines(&points) }
    });
    let panels: Vec<Panel> = panels.collect();
    if let Some(path) = path {
        std::fs::write(path, plot::svg(&panels)).expect("the plot can be written");
        println!("\nplot: {path}");
    }
}

/// Where the oracle was stopped at the cap there is no point.
fn points(family: &Family, solver: Solver) -> Vec<Point> {
    let measured = |n: usize| Some(Point { n, row: measure(&family.games(n), solver)? });
    (6..=12).filter_map(|power| measured(1 << power)).collect()
}

/// Nanoseconds for each unit of work, zeroing left out.
fn print_row(family: &str, solver: Solver, points: &[Point]) {
    let at = |n: usize| points.iter().find(|point| point.n == n);
    let each = |n: usize| at(n).and_then(|point| Some(point.row.port.as_ref()?.net_ms() * 1e6 / point.row.work));
    let shown = SHOWN.map(|n| figure(each(n), 2)).join(" | ");
    let growth = each(4_096).zip(each(64)).map(|(last, first)| last / first);
    let work = figure(at(4_096).map(|point| point.row.work), 0);
    println!("| {family} | {} | {work} | {shown} | {} |", solver.name(), figure(growth, 2));
}

fn lines(points: &Points) -> Vec<Line> {
    let mut lines = Vec::new();
    for (solver, points) in SOLVERS.iter().zip(points) {
        let of = |ms: fn(&Row) -> Option<f64>| -> Vec<(f64, f64)> {
            points.iter().filter_map(|point| Some((point.n as f64, ms(&point.row)?))).collect()
        };
        let colour = if *solver == Solver::Zielonka { plot::BLUE } else { plot::RED };
        lines.push(Line { colour, dash: plot::FULL, points: of(|row| Some(row.rust_ms)) });
        lines.push(Line { colour, dash: plot::DASHED, points: of(|row| Some(row.port.as_ref()?.ms)) });
        if *solver == Solver::Zielonka {
            let zeroing = of(|row| Some(row.port.as_ref()?.zeroing_ms));
            lines.push(Line { colour: plot::GREY, dash: plot::DOTTED, points: zeroing });
        }
    }
    lines.retain(|line| !line.points.is_empty());
    lines
}
