//! A folder of 200 files: lines in the order given, a bar on a terminal and none elsewhere.

use crate::made::{game, Numbers};
use crate::{Bench, Ended};
use std::process::{Command, Stdio};

fn folder(name: &str) -> (Bench, Vec<String>) {
    let bench = Bench::new(name);
    let mut numbers = Numbers::from(200);
    let names: Vec<String> = (0..200).map(|index| format!("{index}.pg")).collect();
    for (index, name) in names.iter().enumerate() {
        // the first takes longest, and its line comes first all the same
        let n = if index == 0 { 2000 } else { 1 + numbers.below(60) };
        let text = game(&mut numbers, n, 3 * n, 9);
        bench.file(name, text);
    }
    (bench, names)
}

#[test]
fn lines_in_the_order_given_and_nothing_else() {
    let (bench, names) = folder("folder");
    let words: Vec<&str> = ["solve"].into_iter().chain(names.iter().map(String::as_str)).collect();
    let Ended(status, out, err) = bench.run(&words);
    assert_eq!((status, err.as_str(), out.lines().count()), (0, "", 200));
    for (line, name) in out.lines().zip(&names) {
        assert!(line.starts_with(&format!("{name} ")), "{line}");
        assert_eq!(bench.run(&["solve", name]).1, format!("{line}\n"));
    }
}

#[test]
fn a_bar_on_a_terminal() {
    let (bench, _) = folder("terminal");
    let shown = |options: &str| {
        let line = format!("{} {options} solve *.pg >lines", env!("CARGO_BIN_EXE_reckonbough"));
        let mut script = Command::new("script");
        let output = script
            .stdin(Stdio::null())
            .args(["-qec", &line, "/dev/null"])
            .env("TERM", "xterm")
            .current_dir(&bench.0)
            .output()
            .unwrap();
        assert!(output.status.success());
        String::from_utf8_lossy(&output.stdout).into_owned()
    };
    assert!(shown("").contains("/200"));
    assert_eq!(shown("--quiet"), "");
    assert_eq!(bench.text("lines").lines().count(), 200);
}

#[test]
fn a_reader_that_goes_away_is_no_fault() {
    let (bench, _) = folder("pipe");
    let line = format!("{} solve *.pg | head -n 1", env!("CARGO_BIN_EXE_reckonbough"));
    let output = Command::new("sh").args(["-c", &line]).current_dir(&bench.0).output().unwrap();
    assert_eq!(String::from_utf8_lossy(&output.stderr), "");
    assert_eq!(output.stdout.iter().filter(|byte| **byte == b'\n').count(), 1);
}
