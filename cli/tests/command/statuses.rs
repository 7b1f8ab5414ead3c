//! Exit statuses and sentences.

use crate::made::{self, Numbers};
use crate::{ended, Bench, Ended, C7};
use reckonbough::{MAX_EDGES, MAX_VERTICES};
use std::fs::File;
use std::os::unix::process::ExitStatusExt;
use std::process::{Command, Stdio};
use std::thread;
use std::time::{Duration, Instant};

#[test]
fn a_wrong_command_line_is_2() {
    let bench = Bench::new("usage");
    bench.file("c7.pg", C7);
    let lines: [&[&str]; 10] = [
        &[],
        &["sing"],
        &["solve", "--engine", "steam"],
        &["solve", "--budget", "-1"],
        &["solve", "--solution", "s", "c7.pg", "c7.pg"],
        &["check", "c7.pg"],
        &["edit", "c7.pg", "--priority", "3"],
        &["edit", "c7.pg", "--edge", "a=1"],
        &["loop", "c7.pg", "x"],
        &["sheet"],
    ];
    for line in lines {
        let Ended(status, out, err) = bench.run(line);
        assert_eq!((status, out.as_str()), (2, ""), "{line:?}");
        assert!(!err.is_empty());
    }
    assert_eq!(bench.run(&["--help"]).0, 0);
    assert_eq!(bench.run(&["solve", "--help"]).0, 0);
    assert_eq!(bench.run(&["--version"]).0, 0);
}

#[test]
fn refused_and_unreadable_files_are_said_and_the_others_go_on() {
    let bench = Bench::new("go_on");
    bench.file("c7.pg", C7);
    bench.file("game.pg", "parity 2;\n0 2 0 1 \"the meter of the house\";\n1 0 1 0,1,2, ;\n2 0 0 1;\n");
    let Ended(status, out, err) = bench.run(&["solve", "game.pg", "nowhere.pg", ".", "c7.pg"]);
    assert_eq!(
        (status, out.as_str()),
        (1, "game.pg refused 30 57\nnowhere.pg unreadable\n. unreadable\nc7.pg 00 3 3\n")
    );
    let lines: Vec<&str> = err.lines().collect();
    assert_eq!(lines[0], "game.pg:3:14: a target is missing after the comma (30 at byte 57)");
    assert!(lines[1].starts_with("nowhere.pg: the file cannot be read"));
    assert!(lines[2].starts_with(".: the file cannot be read"));
    assert_eq!(bench.run(&["--quiet", "solve", "game.pg"]), ended(1, "game.pg refused 30 57\n", ""));
}

#[test]
fn a_budget_that_is_too_small() {
    let bench = Bench::new("budget");
    bench.file("c7.pg", C7);
    // C9: Zielonka's recursion needs more calls than promotion needs rounds
    bench.file("c8.pg", crate::C8);
    let none = "c7.pg: the budget of 2 is too small (13)\n";
    assert_eq!(bench.run(&["solve", "--budget", "2", "c7.pg"]), ended(1, "c7.pg - - -\n", none));
    assert_eq!(bench.run(&["solve", "--budget", "2", "c8.pg"]), ended(0, "c8.pg 0001 - 2\n", ""));
}

#[test]
fn every_refusal_of_a_text_is_a_sentence() {
    let bench = Bench::new("sentences");
    for (text, sentence) in [
        ("", "-:1:1: the text ends too soon: the word `parity` or an identifier is missing (30 at byte 0)"),
        ("x", "-:1:1: the word `parity` or an identifier is missing (30 at byte 0)"),
        ("paxity 0;", "-:1:3: the word `parity` is misspelt (30 at byte 2)"),
        ("parity0;", "-:1:7: a space is missing after the word `parity` (30 at byte 6)"),
        ("parity ;", "-:1:8: the highest identifier is missing after the word `parity` (30 at byte 7)"),
        ("parity 0 0", "-:1:10: a semicolon is missing after the highest identifier (30 at byte 9)"),
        ("parity 0;", "-:1:10: the text ends too soon: an identifier is missing after the semicolon (30 at byte 9)"),
        ("0 0 0 0;\n;", "-:2:1: an identifier is missing after the semicolon (30 at byte 9)"),
        ("0,", "-:1:2: a priority is missing after the identifier (30 at byte 1)"),
        ("0 1;", "-:1:4: an owner is missing after the priority (30 at byte 3)"),
        ("0 0 0;", "-:1:6: a target is missing after the owner (30 at byte 5)"),
        ("0 0 0 0,;", "-:1:9: a target is missing after the comma (30 at byte 8)"),
        ("0 0 0 0 0", "-:1:9: a comma, a name or a semicolon is missing after the target (30 at byte 8)"),
        ("0 0 0 0 \"a\n", "-:2:1: the text ends too soon: a quote is missing after the name (30 at byte 11)"),
        ("0 0 0 0 \"a\" 1", "-:1:13: a semicolon is missing after the name (30 at byte 12)"),
        ("0 0 0 65536;", "-:1:11: the number is above 65535 (32 at byte 10)"),
        ("1 0 0 0;", "-: identifier 0 is missing (31 at identifier 0)"),
        ("0 0 0 0; 0 0 0 0;", "-: identifier 0 stands at 2 records (31 at identifier 0)"),
        ("parity 3; 0 0 0 0;", "-: the header says `parity 3`, and there are 1 records (31 at identifier 1)"),
        ("0 0 2 0;", "-: the owner of vertex 0 is 2, neither 0 nor 1 (4 at vertex 0)"),
        ("0 0 300 0;", "-: the owner of vertex 0 is 255 or more, neither 0 nor 1 (4 at vertex 0)"),
        ("0 256 0 0;", "-: the priority of vertex 0 is 256, above 255 (5 at vertex 0)"),
        ("0 0 0 0; 1 0 0 0,2;", "-: edge 2, 1 → 2, ends at no vertex (7 at edge 2)"),
    ] {
        let Ended(status, _, err) = bench.run_on(&["solve"], text.as_bytes());
        assert_eq!((status, err), (1, format!("{sentence}\n")), "{text:?}");
    }
}

#[test]
fn limits_of_a_text() {
    let bench = Bench::new("limits");
    let records: String = (0..4097).map(|v| format!("{v} 0 0 0;\n")).collect();
    assert!(bench
        .run_on(&["solve"], records.as_bytes())
        .2
        .contains(": there are more than 4096 vertices (32 at byte "));
    let edges = format!("0 0 0 0{};", ",0".repeat(16_384));
    assert_eq!(
        bench.run_on(&["solve"], edges.as_bytes()).2,
        "-:1:32775: there are more than 16384 edges (32 at byte 32774)\n"
    );
    let most = crate::C7.to_string() + &" ".repeat((1 << 24) - crate::C7.len());
    assert_eq!(bench.run_on(&["solve"], most.as_bytes()), ended(0, "- 00 3 3\n", ""));
    let long = " ".repeat((1 << 24) + 5);
    let sentence = "-:1:16777217: the text is longer than 16777216 bytes (32 at byte 16777216)\n";
    assert_eq!(bench.run_on(&["solve"], long.as_bytes()).2, sentence);
}

#[test]
fn what_cannot_be_written_is_said() {
    let bench = Bench::new("unwritable");
    bench.file("c7.pg", C7);
    let Ended(status, out, err) = bench.run(&["solve", "c7.pg", "--solution", "no/such/folder"]);
    assert_eq!((status, out.as_str()), (1, "c7.pg 00 3 3\n"));
    assert!(err.starts_with("no/such/folder: the file cannot be written"), "{err}");
    let full = File::options().write(true).open("/dev/full").unwrap();
    let output = bench.command(&["compact", "c7.pg"]).stdout(full).stderr(Stdio::piped()).output().unwrap();
    assert_eq!(output.status.code(), Some(1));
    assert!(String::from_utf8_lossy(&output.stderr).starts_with("standard output cannot be written"));
}

/// An interrupt as Ctrl-C sends it: the command has ended within two seconds, by the signal.
fn interrupted(mut command: Command) {
    let mut child = command.stdout(Stdio::null()).stderr(Stdio::null()).spawn().unwrap();
    thread::sleep(Duration::from_millis(300));
    assert!(child.try_wait().unwrap().is_none(), "it has ended by itself");
    let begun = Instant::now();
    assert!(Command::new("kill").args(["-INT", &child.id().to_string()]).status().unwrap().success());
    assert_eq!(child.wait().unwrap().signal(), Some(2));
    assert!(begun.elapsed() < Duration::from_secs(2));
}

#[test]
fn an_interrupt_stops_at_once() {
    let bench = Bench::new("interrupt");
    // while it waits for standard input
    let mut waiting = bench.command(&["solve"]);
    waiting.stdin(Stdio::piped());
    interrupted(waiting);
    // while all threads solve
    bench.file("full.pg", made::game(&mut Numbers::from(7), MAX_VERTICES, MAX_EDGES, 256));
    let words: Vec<&str> = ["solve", "--engine", "all"].into_iter().chain(["full.pg"; 20_000]).collect();
    interrupted(bench.command(&words));
}
