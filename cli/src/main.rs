//! The command `reckonbough`. It reads files, hands them to the library and prints what that says.
#![forbid(unsafe_code)]

mod args;
mod claim;
mod dot;
mod engines;
mod games;
mod grammar;
mod input;
mod many;
mod output;
mod page;
mod paritysol;
mod refusal;
mod sheet;
mod solve;

use clap::error::ErrorKind;
use clap::ArgMatches;
use engines::Wanted;
use output::Said;
use reckonbough::Edit;
use std::fs;
use std::path::{Path, PathBuf};
use std::process::ExitCode;

fn main() -> ExitCode {
    let matches = args::command().get_matches();
    let quiet = matches.get_flag("quiet");
    let good = match matches.subcommand() {
        Some(("solve", given)) => solve_all(given, quiet),
        Some(("sheet", given)) => sheet_of_all(given, quiet),
        Some((verb, given)) => alone(verb, given).print(quiet),
        None => false,
    };
    if good {
        ExitCode::SUCCESS
    } else {
        ExitCode::FAILURE
    }
}

/// A verb that takes one game. None of them runs a solver.
fn alone(verb: &str, given: &ArgMatches) -> Said {
    let file = path(given, "file");
    games::said(match verb {
        "check" => games::check(file, path(given, "solution")),
        "compact" => games::compact(file),
        "mend" => games::mend(file),
        "edit" => games::edit(file, &edits(given)),
        "loop" => games::show_loop(file, number(given, "vertex").unwrap_or(0)),
        _ => dot::file(file, given.get_one::<PathBuf>("solution").map(PathBuf::as_path), number(given, "loop")),
    })
}

fn solve_all(given: &ArgMatches, quiet: bool) -> bool {
    let mut files = paths(given);
    if files.is_empty() {
        files.push(PathBuf::from("-"));
    }
    let solution = given.get_one::<PathBuf>("solution").cloned();
    if solution.is_some() && files.len() > 1 {
        args::command().error(ErrorKind::TooManyValues, "--solution takes one file, and more are given").exit();
    }
    let engine = given.get_one::<String>("engine").map_or("both", String::as_str);
    let wanted = Wanted::named(engine, number(given, "budget").unwrap_or(0));
    let options = solve::Options { wanted, strategy: given.get_flag("strategy"), solution };
    let mut good = true;
    let done =
        many::in_order(&files, quiet, |file, work| solve::file(file, &options, work), |said| good &= said.print(quiet));
    done && good
}

fn sheet_of_all(given: &ArgMatches, quiet: bool) -> bool {
    let budget = args::BUDGET.parse().unwrap_or(0);
    let mut parts = Vec::new();
    let done =
        many::in_order(&paths(given), quiet, |file, work| sheet::file(file, budget, work), |part| parts.push(part));
    output::print(page::text(&parts).as_bytes());
    let good = done && parts.iter().all(|part| part.outcome == sheet::Outcome::Passed);
    match given.get_one::<PathBuf>("html").map(|out| (out, fs::write(out, page::html(&parts)))) {
        Some((out, Err(error))) => {
            let why = format!("{}: the file cannot be written: {error}", input::name(out));
            Said::bad("", why).print(quiet)
        }
        _ => good,
    }
}

/// An edit by its two numbers.
type Kind = fn(u64, u64) -> Edit;

/// The edits in the order of the command line.
fn edits(given: &ArgMatches) -> Vec<Edit> {
    let mut edits: Vec<(usize, Edit)> = Vec::new();
    let kinds: [(&str, Kind); 3] = [
        ("priority", |vertex, priority| Edit::Priority { vertex, priority }),
        ("owner", |vertex, owner| Edit::Owner { vertex, owner }),
        ("edge", |edge, target| Edit::Edge { edge, target }),
    ];
    for (name, edit) in kinds {
        let values = given.get_many::<(u64, u64)>(name).into_iter().flatten();
        let indices = given.indices_of(name).into_iter().flatten();
        edits.extend(indices.zip(values).map(|(index, (at, value))| (index, edit(*at, *value))));
    }
    edits.sort_by_key(|(index, _)| *index);
    edits.into_iter().map(|(_, edit)| edit).collect()
}

fn path<'a>(given: &'a ArgMatches, name: &str) -> &'a Path {
    // clap has refused a command line without it
    given.get_one::<PathBuf>(name).map_or(Path::new("-"), PathBuf::as_path)
}

fn paths(given: &ArgMatches) -> Vec<PathBuf> {
    given.get_many::<PathBuf>("files").into_iter().flatten().cloned().collect()
}

fn number(given: &ArgMatches, name: &str) -> Option<u64> {
    given.get_one::<u64>(name).copied()
}
