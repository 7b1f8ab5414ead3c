//! 10,000 random files: the command's lines are those of the proved program, which RECKONBOUGH_A1 names, wherever both read the
//! file.

use crate::made::{text, Numbers};
use crate::{Bench, Ended};
use std::fs::File;
use std::process::{Command, Stdio};
use std::thread;

const FILES: usize = 10_000;

fn proved(bench: &Bench, program: &str, name: &str) -> String {
    let input = File::open(bench.0.join(name)).unwrap();
    let output = Command::new(program).stdin(input).stderr(Stdio::inherit()).output().unwrap();
    String::from_utf8(output.stdout).unwrap()
}

#[test]
fn lines_equal_the_proved_programs() {
    let program = std::env::var("RECKONBOUGH_A1").expect("RECKONBOUGH_A1 names the proved program");
    let bench = Bench::new("random");
    let mut numbers = Numbers::from(1);
    let names: Vec<String> = (0..FILES).map(|index| format!("{index}.pg")).collect();
    names.iter().for_each(|name| bench.file(name, text(&mut numbers)));
    let given: Vec<&str> = ["solve", "--quiet"].into_iter().chain(names.iter().map(String::as_str)).collect();
    let Ended(status, out, err) = bench.run(&given);
    assert_eq!((status, err.as_str(), out.lines().count()), (1, "", FILES));
    let lines: Vec<&str> = out.lines().collect();
    let refused = lines.iter().filter(|line| line.contains(" refused ")).count();
    assert!(refused > FILES / 10 && refused < FILES / 2, "{refused} refused");
    let work = |half: usize| {
        for index in (half..FILES).step_by(2) {
            same(&bench, &program, &names[index], lines[index]);
        }
    };
    thread::scope(|scope| [0, 1].map(|half| scope.spawn(move || work(half))).map(|half| half.join().unwrap()));
}

/// Compares the two lines. These texts keep the program's limits.
fn same(bench: &Bench, program: &str, name: &str, line: &str) {
    let expected = proved(bench, program, name).replacen("file", name, 1);
    assert_eq!(format!("{line}\n"), expected);
}
