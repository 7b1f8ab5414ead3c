//! A file of full size: what comes out, and that the command costs at most 1.3 times the library's own time plus reading.

use crate::made::{game, Numbers};
use crate::{Bench, Ended};
use reckonbough::{Game, MAX_EDGES, MAX_VERTICES};
use std::fs;
use std::path::Path;
use std::process::{Command, Stdio};
use std::time::Duration;

const BUDGET: u64 = 65_536;
/// How often each program's time is taken, in turns, and over how many runs each time.
const ROUNDS: usize = 5;
const RUNS: u32 = 30;

fn full_size(bench: &Bench) -> Game {
    let text = game(&mut Numbers::from(7), MAX_VERTICES, MAX_EDGES, 256);
    bench.file("full.pg", &text);
    let game = Game::read(text.as_bytes()).unwrap();
    assert_eq!((game.vertices(), game.edges()), (MAX_VERTICES, MAX_EDGES));
    game
}

#[test]
fn a_file_of_full_size() {
    let bench = Bench::new("full");
    let game = full_size(&bench);
    let solved = game.solve_zielonka(BUDGET).unwrap();
    let Ended(status, out, _) = bench.run(&["solve", "full.pg", "--solution", "full.sol"]);
    let winners: String = solved.odd.iter().map(|odd| if *odd { '1' } else { '0' }).collect();
    assert_eq!((status, out.split(' ').nth(1)), (0, Some(winners.as_str())));
    assert_eq!(bench.run(&["check", "full.pg", "full.sol"]).1, "full.pg yes\n");
    let written = bench.run(&["edit", "full.pg"]).1;
    assert_eq!(Game::read(written.as_bytes()), Ok(game));
    // made wrong in one entry: a winner turned round
    let wrong = bench
        .text("full.sol")
        .replacen("\n17 0", "\n17 x", 1)
        .replacen("\n17 1", "\n17 0", 1)
        .replacen("17 x", "17 1", 1);
    bench.file("wrong.sol", wrong);
    let Ended(status, out, err) = bench.run(&["check", "full.pg", "wrong.sol"]);
    assert!(status == 1 && out.starts_with("full.pg no 2") && err.contains(" at vertex "), "{out}{err}");
}

/// What the four programs took, in the order of [`programs`].
type Spent = [Duration; 4];

#[test]
fn the_command_costs_little_more_than_the_library() {
    let bench = Bench::new("cost");
    full_size(&bench);
    let mut rounds: Vec<Spent> = (0..ROUNDS).map(|_| a_round(&bench)).collect();
    let mut middle = |program: usize| {
        rounds.sort_by_key(|spent| spent[program]);
        rounds[ROUNDS / 2][program]
    };
    let [start, read, solve, command] = [middle(0), middle(1), middle(2), middle(3)];
    let (reading, solving) = (read.saturating_sub(start), solve.saturating_sub(read));
    let [a, b, c] = [reading, solving, command].map(|spent| spent / RUNS);
    let said = format!("cost of a file of full size: reading {a:?}, solving {b:?}, the command {c:?}");
    println!("{said}");
    assert!(solving > Duration::ZERO, "the system counts no processor time: {said}");
    assert!(command <= reading + solving.mul_f64(1.3), "{said}");
}

/// The library's three steps, each in a process of its own, and the command.
fn programs(bench: &Bench) -> [Command; 4] {
    let library = |step: &str| {
        let program = Path::new(env!("CARGO_BIN_EXE_reckonbough")).with_file_name("examples").join("library");
        let mut command = Command::new(program);
        command.args([step, "full.pg"]).current_dir(&bench.0).stdin(Stdio::null());
        command
    };
    [library("start"), library("read"), library("solve"), bench.command(&["solve", "full.pg"])]
}

/// Each program in turn, some runs of each.
fn a_round(bench: &Bench) -> Spent {
    programs(bench).map(|mut program| {
        let before = spent();
        for _ in 0..RUNS {
            assert!(program.output().unwrap().status.success());
        }
        spent() - before
    })
}

/// The processor time of all processes that were started here and have ended, in the system's ticks of a hundredth of a second.
/// Other work on the machine makes a process wait, which takes no processor time.
fn spent() -> Duration {
    let stat = fs::read_to_string("/proc/self/stat").unwrap();
    // behind the name, which is in brackets, the state is the first word
    let words: Vec<&str> = stat.rsplit_once(')').unwrap().1.split_whitespace().collect();
    let ticks: u64 = words[13..15].iter().map(|word| word.parse::<u64>().unwrap()).sum();
    Duration::from_millis(10 * ticks)
}
