//! Milliseconds: of the oracle, of the port, of zeroing W words.

use std::hint::black_box;
use std::time::Duration;

use compare::game::Game;
use compare::hard::Solver;
use compare::oracle::{Cap, Outcome, Prepared};
use compare::reference::tables::work_words;

/// What was measured on a game, or on each of several by average.
pub struct Row {
    /// Calls or rounds, of all games.
    pub count: u64,
    /// The work that the rules ask for: vertices, edges, and the entries of predecessor lists that attractors were handed.
    pub work: f64,
    pub rust_ms: f64,
    pub port: Option<Port>,
}

/// The port's part of a row.
pub struct Port {
    pub ms: f64,
    /// Zeroing the first W work words, alone.
    pub zeroing_ms: f64,
}

impl Port {
    pub fn net_ms(&self) -> f64 {
        (self.ms - self.zeroing_ms).max(0.0)
    }
}

impl Row {
    pub fn ratio(&self) -> Option<f64> {
        self.port.as_ref().map(|port| port.ms / self.rust_ms)
    }

    /// The ratio without the zeroing that document 01 demands.
    pub fn net_ratio(&self) -> Option<f64> {
        self.port.as_ref().map(|port| port.net_ms() / self.rust_ms)
    }
}

/// Games of one size, solved one after another. None where the oracle was stopped at the cap. Rust, port and zeroing take turns,
/// so that a change of the machine's pace meets all three.
pub fn measure(games: &[Game], solver: Solver) -> Option<Row> {
    let cap = Cap { messages: 10_000_000, time: Duration::from_secs(20) };
    let (mut count, mut work) = (0, 0);
    for game in games {
        let Outcome::Answer(solved) = solver.oracle(game, cap) else { return None };
        count += solved.count;
        work += (game.n() + game.m()) as u64 + solved.looks;
    }
    let prepared: Vec<Prepared> = games.iter().map(Prepared::new).collect();
    let mut rust = Times::new();
    let mut port = PortTimes::new(games, solver);
    in_turns(|| {
        rust.time(|| prepared.iter().for_each(|game| solve(game, solver)));
        port.turn();
    });
    let each = |all: f64| all / games.len() as f64;
    Some(Row { count, work: each(work as f64), rust_ms: each(rust.ms()), port: port.done() })
}

/// Each game timed by itself; of them all the mean, of a game.
pub fn measure_each(games: &[Game], solver: Solver) -> Option<Row> {
    let rows: Vec<Row> = games.iter().map(|game| measure(std::slice::from_ref(game), solver)).collect::<Option<_>>()?;
    let mean = |of: fn(&Row) -> Option<f64>| Some(rows.iter().map(of).sum::<Option<f64>>()? / rows.len() as f64);
    let port = mean(|row| Some(row.port.as_ref()?.ms)).zip(mean(|row| Some(row.port.as_ref()?.zeroing_ms)));
    Some(Row {
        count: rows.iter().map(|row| row.count).sum::<u64>() / rows.len() as u64,
        work: mean(|row| Some(row.work))?,
        rust_ms: mean(|row| Some(row.rust_ms))?,
        port: port.map(|(ms, zeroing_ms)| Port { ms, zeroing_ms }),
    })
}

/// The most work words that one of the games needs.
pub fn most_words(games: &[Game]) -> usize {
    games.iter().map(words).max().expect("there are games")
}

fn words(game: &Game) -> usize {
    work_words(game.n(), game.m())
}

/// The Rust's solver on a game that is built already.
fn solve(prepared: &Prepared, solver: Solver) {
    match solver {
        Solver::Zielonka => drop(black_box(prepared.zielonka())),
        Solver::Promotion => drop(black_box(prepared.priority_promotion())),
    }
}

/// Turns for 0.6 seconds of the thread's own time, four at least: the first may only tell how often short work is repeated.
pub fn in_turns(mut turn: impl FnMut()) {
    let start = thread_ms();
    let mut turns = 0;
    while turns < 4 || thread_ms() - start < 600.0 {
        turns += 1;
        turn();
    }
}

/// The port's solver, without a budget.
#[cfg(feature = "port")]
fn solve_by_port(game: &Game, solver: Solver, lent: &mut compare::port::Lent) {
    use compare::port;
    let answer = match solver {
        Solver::Zielonka => port::zielonka(game, u64::MAX, lent),
        Solver::Promotion => port::priority_promotion(game, u64::MAX, lent),
    };
    assert_eq!(answer.number, 0, "the port refuses a game of the benchmark");
}

/// What zeroing so many words takes, by a plain fill.
#[cfg(feature = "port")]
pub fn zero(work: &mut [u64], words: usize) {
    black_box(work)[..words].fill(0);
}

/// The games, the kept numbers of each, and one set of outputs and one work area for all of them.
#[cfg(feature = "port")]
struct PortTimes<'a> {
    games: &'a [Game],
    solver: Solver,
    kept: Vec<Vec<u64>>,
    lent: compare::port::Lent,
    whole: Times,
    zeroing: Times,
}

#[cfg(feature = "port")]
impl<'a> PortTimes<'a> {
    fn new(games: &'a [Game], solver: Solver) -> Self {
        let kept = games.iter().map(|game| compare::port::fresh(&game.priorities)).collect();
        let mut lent = compare::port::Lent::junk(&games[0]);
        lent.work = vec![0; most_words(games)];
        PortTimes { games, solver, kept, lent, whole: Times::new(), zeroing: Times::new() }
    }

    fn turn(&mut self) {
        let PortTimes { games, solver, kept, lent, whole, zeroing } = self;
        whole.time(|| {
            for (game, kept) in games.iter().zip(kept.iter_mut()) {
                std::mem::swap(&mut lent.kept, kept);
                solve_by_port(game, *solver, lent);
                std::mem::swap(&mut lent.kept, kept);
            }
        });
        zeroing.time(|| games.iter().for_each(|game| zero(&mut lent.work, words(game))));
    }

    fn done(self) -> Option<Port> {
        let each = |all: f64| all / self.games.len() as f64;
        Some(Port { ms: each(self.whole.ms()), zeroing_ms: each(self.zeroing.ms()) })
    }
}

#[cfg(not(feature = "port"))]
struct PortTimes;

#[cfg(not(feature = "port"))]
impl PortTimes {
    fn new(_games: &[Game], _solver: Solver) -> Self {
        PortTimes
    }

    fn turn(&mut self) {}

    fn done(self) -> Option<Port> {
        None
    }
}

/// The times taken so far, in milliseconds of the thread's own processor time. Short work is repeated within one reading of the
/// clock, about half a millisecond long.
pub struct Times {
    each: Vec<f64>,
    repeats: u32,
}

impl Times {
    pub fn new() -> Self {
        Times { each: Vec::new(), repeats: 1 }
    }

    pub fn time(&mut self, mut work: impl FnMut()) {
        let begin = thread_ms();
        (0..self.repeats).for_each(|_| work());
        let each = (thread_ms() - begin) / f64::from(self.repeats);
        if self.repeats == 1 && each < 0.25 {
            // too short to be told by one reading: the first only says how often
            self.repeats = (0.5 / each.max(0.001)) as u32;
        } else {
            self.each.push(each);
        }
    }

    /// The time that a tenth of the turns kept below: neither a clock that jumps now and then nor other work tells much.
    pub fn ms(mut self) -> f64 {
        self.each.sort_by(f64::total_cmp);
        self.each[self.each.len() / 10]
    }
}

/// The processor time of this thread: what else runs on the machine is left out.
fn thread_ms() -> f64 {
    #[repr(C)]
    struct Time {
        seconds: i64,
        nanoseconds: i64,
    }
    extern "C" {
        fn clock_gettime(clock: i32, time: *mut Time) -> i32;
    }
    const CLOCK_THREAD_CPUTIME_ID: i32 = 3;
    let mut time = Time { seconds: 0, nanoseconds: 0 };
    // Linux on 64 bits: two words, written through a pointer that is valid for the call.
    let failed = unsafe { clock_gettime(CLOCK_THREAD_CPUTIME_ID, &mut time) };
    assert_eq!(failed, 0, "the clock can be read");
    time.seconds as f64 * 1e3 + time.nanoseconds as f64 / 1e6
}
