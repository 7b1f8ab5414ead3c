//! The oracle: merc's solvers as given, on stand-ins, with calls and rounds read from their own debug messages.

use std::any::Any;
use std::cell::{Cell, RefCell};
use std::fmt::{self, Write};
use std::panic::{catch_unwind, resume_unwind, AssertUnwindSafe};
use std::time::{Duration, Instant};

use log::{Level, LevelFilter, Log, Metadata, Record};
use merc_collections::ByteCompressedVec;
use merc_vpg::{ParityGame, Player, Priority, Set, Solver, Strategy, VertexIndex};

use crate::game::{Game, NONE};

/// What a solver of the oracle gave.
#[derive(Clone, Debug, PartialEq, Eq)]
pub struct Solved {
    /// 0 Even, 1 Odd, 2 both sets, 3 neither.
    pub winners: Vec<u8>,
    /// Calls of Zielonka, rounds of priority promotion.
    pub count: u64,
    /// Entries that the stand-in for `Predecessors` handed out.
    pub looks: u64,
    /// One entry a vertex; rests on the stand-in for `Strategy`.
    pub strategy: Vec<u16>,
}

/// How a run of the oracle ended.
#[derive(Clone, Debug, PartialEq, Eq)]
pub enum Outcome<T> {
    Answer(T),
    /// It panicked, with this message.
    Panicked(String),
    /// It was stopped at the cap.
    Capped,
}

/// Where a run is stopped: after so many debug messages, or so much time.
#[derive(Clone, Copy, Debug)]
pub struct Cap {
    pub messages: u64,
    pub time: Duration,
}

impl Default for Cap {
    fn default() -> Cap {
        Cap { messages: 20_000_000, time: Duration::from_secs(20) }
    }
}

/// merc's own game, built through its `from_edges`.
pub fn parity_game(game: &Game) -> ParityGame {
    let owner = game.owners.iter().map(|o| if *o == 0 { Player::Even } else { Player::Odd }).collect();
    let mut priority = ByteCompressedVec::with_capacity(game.n(), 1);
    game.priorities.iter().for_each(|p| priority.push(Priority::new(*p as usize)));
    ParityGame::from_edges(VertexIndex::new(0), owner, priority, false, || {
        (0..game.n()).flat_map(|v| game.edges(v).iter().map(move |w| (VertexIndex::new(v), VertexIndex::new(*w as usize))))
    })
}

pub fn zielonka(game: &Game, cap: Cap) -> Outcome<Solved> {
    capped(cap, || {
        let (sets, chosen) = merc_vpg::solve_zielonka(&parity_game(game), true);
        solved(game, &sets, &chosen, COUNTS.get().calls)
    })
}

pub fn priority_promotion(game: &Game, cap: Cap) -> Outcome<Solved> {
    capped(cap, || {
        let (sets, chosen) = merc_vpg::solve_priority_promotion(&parity_game(game), true);
        solved(game, &sets, &chosen, COUNTS.get().rounds)
    })
}

/// The solitaire set, one entry a vertex.
pub fn solitaire(game: &Game, cap: Cap) -> Outcome<Vec<bool>> {
    capped(cap, || {
        let set = Solver::solitaire(&parity_game(game));
        (0..game.n()).map(|v| set[v]).collect()
    })
}

/// The raw words of Zielonka's two sets, bits at n and above included; these bits rest on the stand-in for bitvec.
pub fn raw_words(game: &Game) -> [Vec<usize>; 2] {
    let (sets, _) = merc_vpg::solve_zielonka(&parity_game(game), true);
    sets.map(|set| set.as_raw_slice().to_vec())
}

/// The sets, and the strategies in them.
pub type Won = ([Set; 2], Option<[Strategy; 2]>);

/// A game that is built already, for timing: solved with a strategy, without messages, counts or caps.
pub struct Prepared(ParityGame);

impl Prepared {
    pub fn new(game: &Game) -> Prepared {
        Prepared(parity_game(game))
    }

    pub fn zielonka(&self) -> Won {
        quietly(|| merc_vpg::solve_zielonka(&self.0, true))
    }

    pub fn priority_promotion(&self) -> Won {
        quietly(|| merc_vpg::solve_priority_promotion(&self.0, true))
    }
}

fn quietly<T>(work: impl FnOnce() -> T) -> T {
    log::set_max_level(LevelFilter::Off);
    let result = work();
    log::set_max_level(LevelFilter::Debug);
    result
}

fn solved(game: &Game, sets: &[Set; 2], chosen: &Option<[Strategy; 2]>, count: u64) -> Solved {
    let winner = |v: usize| match (sets[0][v], sets[1][v]) {
        (true, false) => 0,
        (false, true) => 1,
        (true, true) => 2,
        (false, false) => 3,
    };
    let entry = |v: usize| {
        let players = chosen.as_ref()?;
        players[game.owners[v] as usize].target(VertexIndex::new(v))
    };
    Solved {
        winners: (0..game.n()).map(winner).collect(),
        count,
        looks: COUNTS.get().looks,
        strategy: (0..game.n()).map(|v| entry(v).map_or(NONE, |w| w.value() as u16)).collect(),
    }
}

// What the messages told, and the cap.

#[derive(Clone, Copy, Default)]
struct Counts {
    calls: u64,
    rounds: u64,
    looks: u64,
    messages: u64,
}

thread_local! {
    static COUNTS: Cell<Counts> = const { Cell::new(Counts { calls: 0, rounds: 0, looks: 0, messages: 0 }) };
    static LIMIT: Cell<Option<(u64, Instant)>> = const { Cell::new(None) };
    static TEXT: RefCell<Start> = const { RefCell::new(Start(String::new())) };
}

/// The payload that a capped run unwinds with.
struct Stopped;

/// Runs `work` with counts at zero; panics and the cap become outcomes.
fn capped<T>(cap: Cap, work: impl FnOnce() -> T) -> Outcome<T> {
    install();
    COUNTS.set(Counts::default());
    LIMIT.set(Some((cap.messages, Instant::now() + cap.time)));
    let result = catch_unwind(AssertUnwindSafe(work));
    LIMIT.set(None);
    match result {
        Ok(answer) => Outcome::Answer(answer),
        Err(payload) if payload.is::<Stopped>() => Outcome::Capped,
        Err(payload) => Outcome::Panicked(message(payload.as_ref())),
    }
}

fn message(payload: &(dyn Any + Send)) -> String {
    if let Some(text) = payload.downcast_ref::<String>() {
        text.clone()
    } else {
        payload.downcast_ref::<&str>().map_or_else(String::new, |text| text.to_string())
    }
}

/// Sets the log backend, and keeps the oracle's panics off the screen.
fn install() {
    if log::set_logger(&Counter).is_ok() {
        log::set_max_level(LevelFilter::Debug);
        let before = std::panic::take_hook();
        std::panic::set_hook(Box::new(move |info| {
            if LIMIT.get().is_none() {
                before(info);
            }
        }));
    }
}

/// The log backend: it counts and writes nothing.
struct Counter;

impl Log for Counter {
    fn enabled(&self, metadata: &Metadata) -> bool {
        metadata.level() <= Level::Debug
    }

    fn log(&self, record: &Record) {
        if !self.enabled(record.metadata()) {
            return;
        }
        let mut counts = COUNTS.get();
        counts.messages += 1;
        TEXT.with_borrow_mut(|text| text.read(record, &mut counts));
        COUNTS.set(counts);
        stop_at_limit(counts.messages);
    }

    fn flush(&self) {}
}

fn stop_at_limit(messages: u64) {
    let Some((most, until)) = LIMIT.get() else { return };
    let late = messages % 256 == 0 && Instant::now() > until;
    if (messages > most || late) && !std::thread::panicking() {
        resume_unwind(Box::new(Stopped));
    }
}

/// The first bytes of a message: enough to tell which one it is, and to read the one number of two of them.
struct Start(String);

impl Write for Start {
    fn write_str(&mut self, piece: &str) -> fmt::Result {
        self.0.push_str(piece);
        if self.0.len() < 48 {
            Ok(())
        } else {
            Err(fmt::Error)
        }
    }
}

impl Start {
    fn read(&mut self, record: &Record, counts: &mut Counts) {
        self.0.clear();
        let _ = self.write_fmt(*record.args());
        let starts = |text| self.0.starts_with(text);
        if starts("Newly computed region") || starts("Found the dominion") || starts("Promoted dominion") {
            counts.rounds += 1;
        } else if starts("Performed ") {
            counts.calls = self.number();
        } else if starts("Handed out ") {
            counts.looks = self.number();
        }
    }

    fn number(&self) -> u64 {
        self.0.split(' ').find_map(|word| word.parse().ok()).expect("the message holds a number")
    }
}
