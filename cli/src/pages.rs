//! reckonbough-pages FOLDER: writes the man page and the completions of bash, zsh and fish into the folder, all from the command
//! as clap has it.
#![forbid(unsafe_code)]

mod args;

use clap::{Arg, Command};
use clap_complete::{generate_to, Shell};
use roff::{bold, italic, roman, Inline, Roff};
use std::path::Path;
use std::{env, fs, io};

fn main() -> io::Result<()> {
    let folder = env::args_os().nth(1).ok_or_else(|| io::Error::new(io::ErrorKind::InvalidInput, "name a folder"))?;
    for shell in [Shell::Bash, Shell::Zsh, Shell::Fish] {
        generate_to(shell, &mut args::command(), "reckonbough", &folder)?;
    }
    fs::write(Path::new(&folder).join("reckonbough.1"), man(&args::command()))
}

fn man(command: &Command) -> String {
    let mut page = Roff::new();
    let about = said(command.get_about());
    page.control("TH", ["reckonbough", "1"]).control("SH", ["NAME"]).text([roman(format!("reckonbough - {about}"))]);
    page.control("SH", ["SYNOPSIS"]);
    for verb in command.get_subcommands() {
        page.text(synopsis(verb)).control("br", []);
    }
    page.control("SH", ["DESCRIPTION"]).text([roman(said(command.get_after_help()))]);
    command.get_arguments().for_each(|arg| described(&mut page, arg));
    for verb in command.get_subcommands() {
        page.control("SH", [verb.get_name().to_uppercase().as_str()]);
        page.text([roman(said(verb.get_long_about().or_else(|| verb.get_about())))]);
        verb.get_arguments().for_each(|arg| described(&mut page, arg));
    }
    page.render()
}

fn said(text: Option<&clap::builder::StyledStr>) -> String {
    text.map_or(String::new(), |text| text.to_string())
}

/// `reckonbough VERB FILE [--option VALUE]`.
fn synopsis(verb: &Command) -> Vec<Inline> {
    let mut line = vec![bold(format!("reckonbough {}", verb.get_name()))];
    for arg in verb.get_arguments() {
        let (open, close) = if arg.is_required_set() { (" ", "") } else { (" [", "]") };
        line.push(roman(open));
        line.extend(shown(arg));
        line.push(roman(close));
    }
    line
}

fn shown(arg: &Arg) -> Vec<Inline> {
    let value =
        arg.get_value_names().map_or(String::new(), |names| names.iter().map(|name| name.to_string()).collect());
    match arg.get_long() {
        Some(long) if arg.get_action().takes_values() => vec![bold(format!("--{long}")), roman(" "), italic(value)],
        Some(long) => vec![bold(format!("--{long}"))],
        None if arg.get_num_args().map_or(false, |many| many.max_values() > 1) => vec![italic(value), roman(" ..")],
        None => vec![italic(value)],
    }
}

fn described(page: &mut Roff, arg: &Arg) {
    page.control("TP", []).text(shown(arg)).text([roman(said(arg.get_help()) + &choices(arg))]);
}

/// The values that an option takes, where they are few, and what it is where it is not given.
fn choices(arg: &Arg) -> String {
    if !arg.get_action().takes_values() {
        return String::new();
    }
    let values: Vec<String> = arg.get_possible_values().iter().map(|value| value.get_name().into()).collect();
    let defaults = arg.get_default_values().iter().map(|value| value.to_string_lossy());
    let one_of = if values.is_empty() { String::new() } else { format!("; one of {}", values.join(", ")) };
    one_of + &defaults.map(|value| format!("; {value} where none is given")).collect::<String>()
}
