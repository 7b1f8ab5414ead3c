//! The port behind its C functions, as include/reckonbough.h lists them.

use crate::game::Game;
use crate::reference::tables::{set_words, work_words};
use crate::reference::Answer;

/// Declares a door: the tables, its own arguments, place and count; and gives the answer of calling it.
macro_rules! door {
    ($name:ident($game:expr $(, $value:expr => $kind:ty)*)) => {{
        extern "C" {
            fn $name(
                owners: *const u8, owners_len: usize, priorities: *const u16, priorities_len: usize,
                offsets: *const u16, offsets_len: usize, targets: *const u16, targets_len: usize,
                $(_: $kind,)* place: *mut u64, count: *mut u64,
            ) -> u64;
        }
        let game: &Game = $game;
        let (mut place, mut count) = (u64::MAX, u64::MAX);
        // Every pointer goes with the length of the slice it was taken from.
        let number = unsafe {
            $name(
                game.owners.as_ptr(), game.owners.len(), game.priorities.as_ptr(), game.priorities.len(),
                game.offsets.as_ptr(), game.offsets.len(), game.targets.as_ptr(), game.targets.len(),
                $($value,)* &mut place, &mut count,
            )
        };
        Answer { number, place, count }
    }};
}

/// Declares a door that takes a record: the sizes, the tables, the kept numbers, its own arguments, place and count; and gives the
/// answer of calling it.
macro_rules! record_door {
    ($name:ident($game:expr, $kept:expr $(, $value:expr => $kind:ty)*)) => {{
        extern "C" {
            fn $name(
                n: u64, m: u64,
                owners: *const u8, owners_len: usize, priorities: *const u16, priorities_len: usize,
                offsets: *const u16, offsets_len: usize, targets: *const u16, targets_len: usize,
                kept: *const u64, kept_len: usize,
                $(_: $kind,)* place: *mut u64, count: *mut u64,
            ) -> u64;
        }
        let (game, kept): (&Game, &[u64]) = ($game, $kept);
        let (mut place, mut count) = (u64::MAX, u64::MAX);
        // Every pointer goes with the length of the slice it was taken from.
        let number = unsafe {
            $name(
                game.n() as u64, game.m() as u64,
                game.owners.as_ptr(), game.owners.len(), game.priorities.as_ptr(), game.priorities.len(),
                game.offsets.as_ptr(), game.offsets.len(), game.targets.as_ptr(), game.targets.len(),
                kept.as_ptr(), kept.len(),
                $($value,)* &mut place, &mut count,
            )
        };
        Answer { number, place, count }
    }};
}

/// What a fresh count of priorities gives, by plain code; those above 255 are not counted.
pub fn fresh(priorities: &[u16]) -> Vec<u64> {
    let mut kept = vec![0; 258];
    priorities.iter().filter(|p| **p < 256).for_each(|p| kept[usize::from(*p)] += 1);
    kept[256] = kept[..256].iter().filter(|count| **count != 0).count() as u64;
    kept[257] = (0..256).rev().find(|p| kept[*p] != 0).unwrap_or(0) as u64;
    kept
}

/// What is lent to a door to write into.
#[derive(Clone, Debug, PartialEq, Eq)]
pub struct Lent {
    /// Also the attractor's result and the solitaire set.
    pub even: Vec<u64>,
    pub odd: Vec<u64>,
    /// Also the new priorities.
    pub strategy: Vec<u16>,
    /// Of the attractor alone.
    pub distances: Vec<u16>,
    /// Of compaction alone.
    pub new_kept: Vec<u64>,
    pub work: Vec<u64>,
    /// The record's kept numbers, which are only read.
    pub kept: Vec<u64>,
}

impl Lent {
    /// Sized for the game, with junk in it and three words of work area more than needed.
    pub fn junk(game: &Game) -> Lent {
        let words = set_words(game.n());
        Lent {
            even: vec![0xa5a5_5a5a_a5a5_5a5a; words],
            odd: vec![0x1234_5678_9abc_def0; words],
            strategy: vec![0x7777; game.n()],
            distances: vec![0x6666; game.n()],
            new_kept: vec![0x5555; 258],
            work: vec![0xfeed_feed_feed_feed; work_words(game.n(), game.m()) + 3],
            kept: fresh(&game.priorities),
        }
    }
}

pub fn check_tables(game: &Game) -> Answer {
    door!(reckonbough_check_tables(game))
}

pub fn zielonka(game: &Game, budget: u64, lent: &mut Lent) -> Answer {
    record_door!(reckonbough_zielonka(game, &lent.kept, budget => u64,
        lent.even.as_mut_ptr() => *mut u64, lent.even.len() => usize,
        lent.odd.as_mut_ptr() => *mut u64, lent.odd.len() => usize,
        lent.strategy.as_mut_ptr() => *mut u16, lent.strategy.len() => usize,
        lent.work.as_mut_ptr() => *mut u64, lent.work.len() => usize))
}

pub fn priority_promotion(game: &Game, budget: u64, lent: &mut Lent) -> Answer {
    record_door!(reckonbough_priority_promotion(game, &lent.kept, budget => u64,
        lent.even.as_mut_ptr() => *mut u64, lent.even.len() => usize,
        lent.odd.as_mut_ptr() => *mut u64, lent.odd.len() => usize,
        lent.strategy.as_mut_ptr() => *mut u16, lent.strategy.len() => usize,
        lent.work.as_mut_ptr() => *mut u64, lent.work.len() => usize))
}

/// The work area is lent apart, as it is larger.
pub fn quasi_polynomial(game: &Game, lent: &mut Lent, work: &mut [u64]) -> Answer {
    record_door!(reckonbough_quasi_polynomial(game, &lent.kept,
        lent.even.as_mut_ptr() => *mut u64, lent.even.len() => usize,
        lent.odd.as_mut_ptr() => *mut u64, lent.odd.len() => usize,
        work.as_mut_ptr() => *mut u64, work.len() => usize))
}

/// The set is lent as `even`.
pub fn solitaire(game: &Game, lent: &mut Lent) -> Answer {
    record_door!(reckonbough_solitaire(game, &lent.kept,
        lent.even.as_mut_ptr() => *mut u64, lent.even.len() => usize,
        lent.work.as_mut_ptr() => *mut u64, lent.work.len() => usize))
}

/// What is lent to [`show_loop`] to write into.
#[derive(Clone, Debug, PartialEq, Eq)]
pub struct Lists {
    pub path: Vec<u16>,
    pub cycle: Vec<u16>,
    pub work: Vec<u64>,
    pub path_length: u64,
    /// The record's kept numbers, which are only read.
    pub kept: Vec<u64>,
}

impl Lists {
    /// Lists of two entries more than needed, and three words of work area more, with junk in them.
    pub fn junk(game: &Game) -> Lists {
        Lists { work: vec![0xfeed_feed_feed_feed; work_words(game.n(), game.m()) + 3], ..Lists::junk_lists(game) }
    }

    /// The same without a work area.
    pub fn junk_lists(game: &Game) -> Lists {
        let room = 2 * game.n() + 2;
        let kept = fresh(&game.priorities);
        Lists { path: vec![0x7777; room], cycle: vec![0x5a5a; room], work: Vec::new(), path_length: u64::MAX, kept }
    }
}

pub fn show_loop(game: &Game, vertex: u64, lists: &mut Lists) -> Answer {
    record_door!(reckonbough_show_loop(game, &lists.kept, vertex => u64,
        lists.path.as_mut_ptr() => *mut u16, lists.path.len() => usize,
        lists.cycle.as_mut_ptr() => *mut u16, lists.cycle.len() => usize,
        lists.work.as_mut_ptr() => *mut u64, lists.work.len() => usize,
        &mut lists.path_length => *mut u64))
}

/// The result is lent as `even`.
pub fn attractor(game: &Game, player: u8, within: &[u64], target: &[u64], lent: &mut Lent) -> Answer {
    record_door!(reckonbough_attractor(game, &lent.kept, player => u8,
        within.as_ptr() => *const u64, within.len() => usize,
        target.as_ptr() => *const u64, target.len() => usize,
        lent.even.as_mut_ptr() => *mut u64, lent.even.len() => usize,
        lent.strategy.as_mut_ptr() => *mut u16, lent.strategy.len() => usize,
        lent.distances.as_mut_ptr() => *mut u16, lent.distances.len() => usize,
        lent.work.as_mut_ptr() => *mut u64, lent.work.len() => usize))
}

/// The claim is read from `even`, `odd` and `strategy`.
pub fn check(game: &Game, lent: &mut Lent) -> Answer {
    record_door!(reckonbough_check(game, &lent.kept,
        lent.even.as_ptr() => *const u64, lent.even.len() => usize,
        lent.odd.as_ptr() => *const u64, lent.odd.len() => usize,
        lent.strategy.as_ptr() => *const u16, lent.strategy.len() => usize,
        lent.work.as_mut_ptr() => *mut u64, lent.work.len() => usize))
}

/// The new priorities are lent as `strategy`.
pub fn compact(game: &Game, lent: &mut Lent) -> Answer {
    record_door!(reckonbough_compact(game, &lent.kept,
        lent.strategy.as_mut_ptr() => *mut u16, lent.strategy.len() => usize,
        lent.new_kept.as_mut_ptr() => *mut u64, lent.new_kept.len() => usize))
}

/// What is lent to the reader: four tables, the work area, and the sizes.
#[derive(Clone, Debug, PartialEq, Eq)]
pub struct Rooms {
    pub owners: Vec<u8>,
    pub priorities: Vec<u16>,
    pub offsets: Vec<u16>,
    pub targets: Vec<u16>,
    /// Written by [`read`] alone.
    pub kept: Vec<u64>,
    pub work: Vec<u64>,
    pub n: u64,
    pub m: u64,
}

impl Rooms {
    /// Room for so many vertices and edges and three words more than needed, every byte the same.
    pub fn filled(vertices: usize, edges: usize, byte: u8) -> Rooms {
        let (short, long) = (u16::from_ne_bytes([byte; 2]), u64::from_ne_bytes([byte; 8]));
        Rooms {
            owners: vec![byte; vertices],
            priorities: vec![short; vertices],
            offsets: vec![short; vertices + 1],
            targets: vec![short; edges],
            kept: vec![long; 258],
            work: vec![long; vertices + edges + 3],
            n: long,
            m: long,
        }
    }
}

/// What is lent to [`mend`] to write into.
#[derive(Clone, Debug, PartialEq, Eq)]
pub struct Outputs {
    pub priorities: Vec<u16>,
    pub offsets: Vec<u16>,
    pub targets: Vec<u16>,
    pub list: Vec<u16>,
}

impl Outputs {
    /// Of these lengths, with junk in them.
    pub fn junk(priorities: usize, offsets: usize, targets: usize, list: usize) -> Outputs {
        Outputs {
            priorities: vec![0x7777; priorities],
            offsets: vec![0x5a5a; offsets],
            targets: vec![0xa5a5; targets],
            list: vec![0xfeed; list],
        }
    }
}

/// Declares a door of the reader and gives the answer of calling it; `kept` is named where the door writes it.
macro_rules! reading {
    ($name:ident($text:expr, $most_bytes:expr, $rooms:expr $(, $kept:ident)?)) => {{
        extern "C" {
            fn $name(
                text: *const u8, text_len: usize, most_bytes: u64,
                owners: *mut u8, owners_len: usize, priorities: *mut u16, priorities_len: usize,
                offsets: *mut u16, offsets_len: usize, targets: *mut u16, targets_len: usize,
                $($kept: *mut u64, kept_len: usize,)?
                work: *mut u64, work_len: usize, n: *mut u64, m: *mut u64, place: *mut u64, count: *mut u64,
            ) -> u64;
        }
        let (text, rooms): (&[u8], &mut Rooms) = ($text, $rooms);
        let (mut place, mut count) = (u64::MAX, u64::MAX);
        // Every pointer goes with the length of the slice it was taken from.
        let number = unsafe {
            $name(
                text.as_ptr(), text.len(), $most_bytes,
                rooms.owners.as_mut_ptr(), rooms.owners.len(), rooms.priorities.as_mut_ptr(), rooms.priorities.len(),
                rooms.offsets.as_mut_ptr(), rooms.offsets.len(), rooms.targets.as_mut_ptr(), rooms.targets.len(),
                $(rooms.$kept.as_mut_ptr(), rooms.$kept.len(),)?
                rooms.work.as_mut_ptr(), rooms.work.len(), &mut rooms.n, &mut rooms.m, &mut place, &mut count,
            )
        };
        Answer { number, place, count }
    }};
}

pub fn read(text: &[u8], most_bytes: u64, rooms: &mut Rooms) -> Answer {
    reading!(reckonbough_read(text, most_bytes, rooms, kept))
}

pub fn read_tables(text: &[u8], most_bytes: u64, rooms: &mut Rooms) -> Answer {
    reading!(reckonbough_read_tables(text, most_bytes, rooms))
}

pub fn mend(game: &Game, lent: &mut Outputs) -> Answer {
    door!(reckonbough_mend(game,
        lent.priorities.as_mut_ptr() => *mut u16, lent.priorities.len() => usize,
        lent.offsets.as_mut_ptr() => *mut u16, lent.offsets.len() => usize,
        lent.targets.as_mut_ptr() => *mut u16, lent.targets.len() => usize,
        lent.list.as_mut_ptr() => *mut u16, lent.list.len() => usize))
}

pub fn write(game: &Game, kept: &[u64], text: &mut [u8]) -> Answer {
    record_door!(reckonbough_write(game, kept, text.as_mut_ptr() => *mut u8, text.len() => usize))
}

/// A game record: sizes, tables with room to spare, and the kept numbers.
#[derive(Clone, Debug, PartialEq, Eq)]
pub struct Record {
    pub n: u64,
    pub m: u64,
    pub tables: Game,
    pub kept: Vec<u64>,
}

/// Declares a door that takes a record and gives the answer of calling it. The doors write through some of the pointers only.
macro_rules! editing {
    ($name:ident($record:expr $(, $value:expr)*)) => {{
        extern "C" {
            fn $name(
                n: u64, m: u64,
                owners: *mut u8, owners_len: usize, priorities: *mut u16, priorities_len: usize,
                offsets: *mut u16, offsets_len: usize, targets: *mut u16, targets_len: usize,
                kept: *mut u64, kept_len: usize, $(_: editing!(@kind $value),)* place: *mut u64, count: *mut u64,
            ) -> u64;
        }
        let Record { n, m, tables, kept } = $record;
        let (mut place, mut count) = (u64::MAX, u64::MAX);
        // Every pointer goes with the length of the slice it was taken from.
        let number = unsafe {
            $name(
                *n, *m,
                tables.owners.as_mut_ptr(), tables.owners.len(), tables.priorities.as_mut_ptr(), tables.priorities.len(),
                tables.offsets.as_mut_ptr(), tables.offsets.len(), tables.targets.as_mut_ptr(), tables.targets.len(),
                kept.as_mut_ptr(), kept.len(), $($value,)* &mut place, &mut count,
            )
        };
        Answer { number, place, count }
    }};
    (@kind $value:expr) => { u64 };
}

pub fn fresh_count(record: &mut Record) -> Answer {
    editing!(reckonbough_fresh_count(record))
}

pub fn set_priority(record: &mut Record, vertex: u64, priority: u64) -> Answer {
    editing!(reckonbough_set_priority(record, vertex, priority))
}

pub fn set_owner(record: &mut Record, vertex: u64, owner: u64) -> Answer {
    editing!(reckonbough_set_owner(record, vertex, owner))
}

pub fn turn_edge(record: &mut Record, edge: u64, target: u64) -> Answer {
    editing!(reckonbough_turn_edge(record, edge, target))
}
