//! The command line as clap has it; also what the man page and the completions are made of.

use clap::{value_parser, Arg, ArgAction, Command};
use std::path::PathBuf;

/// The most calls and rounds where none are given.
pub const BUDGET: &str = "65536";

/// The whole command.
pub fn command() -> Command {
    Command::new("reckonbough")
        .version(env!("CARGO_PKG_VERSION"))
        .about("Solves parity games in PGSolver's form by code that is proved correct")
        .after_help(AFTER)
        .subcommand_required(true)
        .arg_required_else_help(true)
        .arg(quiet())
        .subcommands([solve(), check(), compact(), mend(), edit(), run(), dot(), sheet()])
}

const AFTER: &str = "\
A file has at most 4096 vertices, 16384 edges and 16 MiB; `-` is standard input. Exit status: 0 when every file was answered, \
1 when one was refused, could not be read, was over budget or failed its check, 2 for a wrong command line.";

fn solve() -> Command {
    Command::new("solve")
        .about("Prints for each file who wins where, the calls of Zielonka's recursion and the rounds of priority promotion")
        .long_about(
            "Prints a line a file: its name, the winner of each vertex in order (0 Even, 1 Odd), the calls of Zielonka's \
             recursion and the rounds of priority promotion. An engine that went over the budget has `-`, one that was not run \
             `.`; the winners are `-` where no engine answered. A refused text has `refused`, the number and the place, and \
             a sentence on standard error; a file that cannot be read has `unreadable`.",
        )
        .arg(files("The games, in PGSolver's form; none or `-` is standard input"))
        .arg(engine())
        .arg(
            Arg::new("budget")
                .long("budget")
                .value_name("N")
                .value_parser(value_parser!(u64))
                .default_value(BUDGET)
                .help("The most calls of Zielonka's recursion and the most rounds of priority promotion"),
        )
        .arg(flag("strategy", "One column more: the chosen target of each vertex, `-` where its owner does not win"))
        .arg(path("solution", "OUT").help("Writes winners and strategy of the one file as `paritysol` text to OUT"))
}

fn engine() -> Arg {
    Arg::new("engine")
        .long("engine")
        .value_name("ENGINE")
        .value_parser(["zielonka", "promotion", "quasi", "both", "all"])
        .default_value("both")
        .help("What solves: one engine, Zielonka's and promotion (both), or the second opinion too (all)")
}

fn check() -> Command {
    Command::new("check")
        .about("Has the proved checker check a solution in `paritysol` form, whoever made it")
        .long_about(
            "Prints the file's name and `yes`, or `no` with the number and the place of the first thing that is wrong, and a \
             sentence on standard error.",
        )
        .args([file(), path_at("solution", "SOLUTION").help("The solution, `paritysol` text")])
}

fn compact() -> Command {
    Command::new("compact").about("Writes the game with the smallest priorities that keep who wins").arg(file())
}

fn mend() -> Command {
    Command::new("mend")
        .about("Writes an incomplete export as a game, and says on standard error what was done")
        .long_about(
            "Drops each edge that ends at no vertex; a vertex without an edge gets a self loop and a priority by which its owner \
             loses there. Writes the game, and lists on standard error what was dropped and altered.",
        )
        .arg(file())
}

fn edit() -> Command {
    let pairs = |name: &'static str, value: &'static str, help: &'static str| {
        Arg::new(name).long(name).value_name(value).action(ArgAction::Append).value_parser(pair).help(help)
    };
    Command::new("edit").about("Writes the game with priorities, owners or edges changed, in the order given").args([
        file(),
        pairs("priority", "V=P", "Gives vertex V priority P"),
        pairs("owner", "V=O", "Gives vertex V to owner O, 0 Even or 1 Odd"),
        pairs("edge", "E=T", "Turns edge E, counted from 0 in the order of identifiers, to target T"),
    ])
}

fn run() -> Command {
    Command::new("loop")
        .about("Shows why a vertex of a game with one owner is won: a path to a cycle, and the cycle in brackets")
        .args([file(), number("vertex", "VERTEX").required(true).help("The vertex to start from")])
}

fn dot() -> Command {
    Command::new("dot")
        .about("Writes the game as Graphviz text: Even's vertices round, Odd's square, each with its priority behind a colon")
        .args([
            file(),
            path("solution", "S").help("Winners by colour, Even's blue and Odd's orange, and strategy edges bold"),
            number("loop", "V").long("loop").help("The run from this vertex, bold and red"),
        ])
}

fn sheet() -> Command {
    Command::new("sheet")
        .about("Writes the test sheet: for each file what it is, who wins, whether the engines agree and the checker says yes")
        .arg(files("The games, in PGSolver's form").required(true))
        .arg(path("html", "OUT").help("Writes the sheet to OUT as one HTML file too"))
}

fn quiet() -> Arg {
    flag("quiet", "Nothing on standard error: no progress, no sentences").short('q').global(true)
}

fn flag(name: &'static str, help: &'static str) -> Arg {
    Arg::new(name).long(name).action(ArgAction::SetTrue).help(help)
}

fn files(help: &'static str) -> Arg {
    Arg::new("files").value_name("FILE").num_args(0..).value_parser(value_parser!(PathBuf)).help(help)
}

fn file() -> Arg {
    path_at("file", "FILE").help("The game, in PGSolver's form; `-` is standard input")
}

fn path_at(name: &'static str, value: &'static str) -> Arg {
    Arg::new(name).value_name(value).required(true).value_parser(value_parser!(PathBuf))
}

fn path(name: &'static str, value: &'static str) -> Arg {
    Arg::new(name).long(name).value_name(value).value_parser(value_parser!(PathBuf))
}

fn number(name: &'static str, value: &'static str) -> Arg {
    Arg::new(name).value_name(value).value_parser(value_parser!(u64))
}

/// `3=7` as its two numbers.
fn pair(given: &str) -> Result<(u64, u64), String> {
    let number = |part: &str| part.parse::<u64>().map_err(|_| format!("`{part}` is no number"));
    match given.split_once('=') {
        Some((at, value)) => Ok((number(at)?, number(value)?)),
        None => Err("two numbers with `=` between are needed".into()),
    }
}
