//! compare all [RANDOM] [LARGE] [CAPPED] | texts [COUNT] | list | replay FILE | probe | slip

use std::time::Instant;

use compare::compare::{compare, Tally, RULES_TO};
use compare::game::{worked, Game};
use compare::hard::{climb, Solver};
use compare::oracle::Cap;
use compare::{definition, generate, list, probe, slip};

/// Differences printed in full; the rest is counted.
const SHOWN: u64 = 10;

/// How many games are written and read again.
#[cfg(feature = "port")]
const TRIPS: u64 = 20_000;

/// How many sequences of edits are made.
#[cfg(feature = "port")]
const SEQUENCES: u64 = 20_000;

/// How many damaged exports are mended.
#[cfg(feature = "port")]
const DAMAGED: u64 = 20_000;

fn main() {
    // The oracle and the reference recurse once for each call of the recursion on sets.
    let run = std::thread::Builder::new().stack_size(1 << 30).spawn(command).expect("a thread can be started");
    std::process::exit(run.join().unwrap_or(2));
}

fn command() -> i32 {
    let arguments: Vec<String> = std::env::args().skip(1).collect();
    let number = |at: usize, or: u64| arguments.get(at).map_or(Ok(or), |text| text.parse());
    match (arguments.first().map(String::as_str), number(1, 100_000), number(2, 16), number(3, 0)) {
        (Some("all"), Ok(random), Ok(large), Ok(capped)) => all(random, large, capped),
        (Some("texts"), Ok(count), ..) => texts(count),
        (Some("list"), ..) => print_list(),
        (Some("replay"), ..) => replay(&arguments[1]),
        (Some("probe"), ..) => {
            probe::report().iter().for_each(|line| println!("{line}"));
            0
        }
        (Some("slip"), ..) => slip::report(),
        _ => {
            eprintln!("usage: compare all [RANDOM] [LARGE] [CAPPED] | texts [COUNT] | list | replay FILE | probe | slip");
            2
        }
    }
}

fn all(random: u64, large: u64, allowed: u64) -> i32 {
    println!("the port: {}", if cfg!(feature = "port") { "compared" } else { "NOT compared, its library was not there" });
    let most = definition::MOST;
    println!("limits: the definition up to {most} vertices, the rules up to {RULES_TO} / (1 + n + m) calls or rounds");
    let families = [
        boundaries(),
        damaged(),
        edited(),
        family("worked games C2 to C9", worked().into_iter().map(|(_, game)| game).filter(|game| game.n() > 0)),
        family("two vertices", generate::two_vertices()),
        family("three vertices", generate::three_vertices()),
        family("random, up to 200 vertices", (0..random).map(generate::random)),
        family("made hard for Zielonka, up to 40 vertices", made_hard(Solver::Zielonka)),
        family("made hard for promotion, up to 40 vertices", made_hard(Solver::Promotion)),
        family("4,096 vertices, chain and ladder", [generate::chain(4_096), generate::ladder(4_096)].into_iter()),
        family("4,096 vertices, random", (0..large).map(generate::large)),
    ];
    finish(&families, allowed)
}

/// Climbs of different sizes, every game on the way.
fn made_hard(solver: Solver) -> impl Iterator<Item = Game> {
    (1..=20).flat_map(move |number| climb(solver, 2 * number, 1_000, 3_000, number as u64))
}

/// The games of a family that differ, that the oracle was stopped on, and that it gave no winners of.
#[derive(Default)]
struct Family {
    differ: u64,
    capped: u64,
    left_out: u64,
}

/// C1 and the limits, on the port alone: the oracle answers none of them.
fn boundaries() -> Family {
    #[cfg(feature = "port")]
    if let Err(what) = compare::port_check::boundaries() {
        println!("DIFFERENCE at the limits: {what}");
        return Family { differ: 1, ..Family::default() };
    }
    Family::default()
}

/// Sequences of edits, on the port alone: the oracle edits none.
fn edited() -> Family {
    #[cfg(feature = "port")]
    {
        let (start, mut refused, mut differ) = (Instant::now(), 0, 0);
        for number in 0..SEQUENCES {
            match compare::edits::compare(number) {
                Ok(more) => refused += more,
                Err(what) => {
                    differ += 1;
                    if differ <= SHOWN {
                        println!("DIFFERENCE in the sequence of edits {number}: {what}");
                    }
                }
            }
        }
        let seconds = start.elapsed().as_secs_f64();
        println!("sequences of edits: {SEQUENCES}, {refused} edits refused alike, {differ} differ, {seconds:.1} s");
        return Family { differ, ..Family::default() };
    }
    #[cfg(not(feature = "port"))]
    Family::default()
}

/// Exports that have to be mended, on the port alone: the oracle mends none.
fn damaged() -> Family {
    #[cfg(feature = "port")]
    {
        let (start, mut mended, mut refused, mut differ) = (Instant::now(), 0, 0, 0);
        for number in 0..DAMAGED {
            match compare::port_check::mending::compare(number) {
                Ok(true) => mended += 1,
                Ok(false) => refused += 1,
                Err(what) => {
                    differ += 1;
                    if differ <= SHOWN {
                        println!("DIFFERENCE in the damaged export {number}: {what}");
                    }
                }
            }
        }
        let seconds = start.elapsed().as_secs_f64();
        println!("damaged exports: {mended} mended alike, {refused} refused alike, {differ} differ, {seconds:.1} s");
        return Family { differ, ..Family::default() };
    }
    #[cfg(not(feature = "port"))]
    Family::default()
}

/// Compares all games of a family.
fn family(name: &str, games: impl Iterator<Item = Game>) -> Family {
    let start = Instant::now();
    let (mut tally, mut differ) = (Tally::default(), 0);
    for game in games {
        if let Err(what) = compare(&game, Cap::default(), &mut tally) {
            differ += 1;
            if differ <= SHOWN {
                println!("DIFFERENCE {what}\n    {game:?}");
            }
        }
    }
    let Tally { games, capped, left_out, .. } = tally;
    let seconds = start.elapsed().as_secs_f64();
    println!("{name}: {games} agree, {differ} differ, {capped} capped, {left_out} of them left out, {seconds:.1} s");
    println!("    {tally:?}");
    Family { differ, capped, left_out }
}

/// Fails where a game differs, and where the oracle was stopped on more games than allowed.
fn finish(families: &[Family], allowed: u64) -> i32 {
    let sum = |count: fn(&Family) -> u64| families.iter().map(count).sum::<u64>();
    let (differ, capped, left_out) = (sum(|f| f.differ), sum(|f| f.capped), sum(|f| f.left_out));
    println!("{capped} games capped, {left_out} of them left out; {allowed} allowed");
    let failed = differ > 0 || capped > allowed;
    let verdict = match (differ, capped) {
        (0, 0) => "no difference",
        (0, _) if failed => "NOT ALL COMPARED",
        (0, _) => "no difference in what was compared",
        _ => "DIFFERENCES",
    };
    println!("{verdict}{}", if cfg!(feature = "port") { "" } else { ", the port not compared" });
    failed as i32
}

/// Random texts, read by the port and by the plain reader; then games written and read again.
#[cfg(feature = "port")]
fn texts(count: u64) -> i32 {
    let (start, mut tally, mut differ) = (Instant::now(), compare::texts::Tally::new(), 0);
    for seed in 0..count {
        if let Err(what) = compare::texts::compare(seed, &mut tally) {
            differ += 1;
            if differ <= SHOWN {
                println!("DIFFERENCE {what}");
            }
        }
    }
    println!("{count} texts, {differ} differ, {:.1} s; how often each number: {tally:?}", start.elapsed().as_secs_f64());
    let start = Instant::now();
    let wrong: Vec<String> = (0..TRIPS).filter_map(|seed| compare::trips::compare(seed).err()).collect();
    wrong.iter().take(SHOWN as usize).for_each(|what| println!("DIFFERENCE {what}"));
    println!("{TRIPS} games written and read again, {} differ, {:.1} s", wrong.len(), start.elapsed().as_secs_f64());
    (differ > 0 || !wrong.is_empty()) as i32
}

#[cfg(not(feature = "port"))]
fn texts(_: u64) -> i32 {
    println!("texts: NOT compared, the port's library was not there");
    0
}

fn print_list() -> i32 {
    for game in list::games() {
        match list::line(&game) {
            Ok(line) => println!("{line}"),
            Err(what) => {
                eprintln!("{what}\n    {game:?}");
                return 1;
            }
        }
    }
    0
}

/// The stored list is the one that the oracle gives now.
fn replay(path: &str) -> i32 {
    let stored = std::fs::read_to_string(path).unwrap_or_default();
    let now: Vec<String> = list::games().iter().map(|game| list::line(game).unwrap_or_else(|what| what)).collect();
    let same = stored.lines().eq(now.iter().map(String::as_str));
    println!("{path}: {} games, {}", now.len(), if same { "as the oracle answers" } else { "NOT as the oracle answers" });
    !same as i32
}
