//! The library's functions, on slices. include/reckonbough.h says of each what it reads, writes and gives. Every content and
//! every length is answered, so each is safe; none of them panics, allocates or keeps anything. This is the one module with
//! unsafe code: it calls the C functions.
//!
//! A set is [`set_words`] words, vertex v at bit v % 64 of word v / 64. A strategy is n entries, and so are new priorities.
//! A work area is [`work_words`] words or more. For [`zielonka`] 2 MiB of stack are enough on x86-64, the size that
//! `std::thread` gives.

use crate::{Answer, Record, Tables};

/// s: the words of a set of n vertices.
pub fn set_words(n: usize) -> usize {
    n / 64 + usize::from(n % 64 != 0)
}

/// W: the fewest words of the work area for n vertices and m edges within the limits; 2,147,600 for the largest game, 17 MB.
///
/// # Panics
///
/// In a debug build, with an n so far beyond the limits that W is no `usize`.
pub fn work_words(n: usize, m: usize) -> usize {
    8 * (n + 2) * set_words(n) + 4 * n + 2 * m + 272
}

/// The W of [`quasi_polynomial`], 2,064 s words more.
///
/// # Panics
///
/// In a debug build, with an n so far beyond the limits that W is no `usize`.
pub fn opinion_words(n: usize, m: usize) -> usize {
    work_words(n, m) + 2_064 * set_words(n)
}

// As include/reckonbough.h declares them.
#[rustfmt::skip]
extern "C" {
    fn reckonbough_check_tables(
        owners: *const u8, owners_length: usize,
        priorities: *const u16, priorities_length: usize,
        offsets: *const u16, offsets_length: usize,
        targets: *const u16, targets_length: usize,
        place: *mut u64, count: *mut u64,
    ) -> u64;
    fn reckonbough_attractor(
        n: u64, m: u64,
        owners: *const u8, owners_room: usize,
        priorities: *const u16, priorities_room: usize,
        offsets: *const u16, offsets_room: usize,
        targets: *const u16, targets_room: usize,
        kept: *const u64, kept_length: usize,
        player: u8,
        within: *const u64, within_length: usize,
        target: *const u64, target_length: usize,
        result: *mut u64, result_length: usize,
        strategy: *mut u16, strategy_length: usize,
        distances: *mut u16, distances_length: usize,
        work: *mut u64, work_length: usize,
        place: *mut u64, count: *mut u64,
    ) -> u64;
    fn reckonbough_zielonka(
        n: u64, m: u64,
        owners: *const u8, owners_room: usize,
        priorities: *const u16, priorities_room: usize,
        offsets: *const u16, offsets_room: usize,
        targets: *const u16, targets_room: usize,
        kept: *const u64, kept_length: usize,
        budget: u64,
        even: *mut u64, even_length: usize,
        odd: *mut u64, odd_length: usize,
        strategy: *mut u16, strategy_length: usize,
        work: *mut u64, work_length: usize,
        place: *mut u64, count: *mut u64,
    ) -> u64;
    fn reckonbough_priority_promotion(
        n: u64, m: u64,
        owners: *const u8, owners_room: usize,
        priorities: *const u16, priorities_room: usize,
        offsets: *const u16, offsets_room: usize,
        targets: *const u16, targets_room: usize,
        kept: *const u64, kept_length: usize,
        budget: u64,
        even: *mut u64, even_length: usize,
        odd: *mut u64, odd_length: usize,
        strategy: *mut u16, strategy_length: usize,
        work: *mut u64, work_length: usize,
        place: *mut u64, count: *mut u64,
    ) -> u64;
    fn reckonbough_quasi_polynomial(
        n: u64, m: u64,
        owners: *const u8, owners_room: usize,
        priorities: *const u16, priorities_room: usize,
        offsets: *const u16, offsets_room: usize,
        targets: *const u16, targets_room: usize,
        kept: *const u64, kept_length: usize,
        even: *mut u64, even_length: usize,
        odd: *mut u64, odd_length: usize,
        work: *mut u64, work_length: usize,
        place: *mut u64, count: *mut u64,
    ) -> u64;
    fn reckonbough_solitaire(
        n: u64, m: u64,
        owners: *const u8, owners_room: usize,
        priorities: *const u16, priorities_room: usize,
        offsets: *const u16, offsets_room: usize,
        targets: *const u16, targets_room: usize,
        kept: *const u64, kept_length: usize,
        set: *mut u64, set_length: usize,
        work: *mut u64, work_length: usize,
        place: *mut u64, count: *mut u64,
    ) -> u64;
    fn reckonbough_show_loop(
        n: u64, m: u64,
        owners: *const u8, owners_room: usize,
        priorities: *const u16, priorities_room: usize,
        offsets: *const u16, offsets_room: usize,
        targets: *const u16, targets_room: usize,
        kept: *const u64, kept_length: usize,
        vertex: u64,
        path: *mut u16, path_room: usize,
        cycle: *mut u16, cycle_room: usize,
        work: *mut u64, work_length: usize,
        path_length: *mut u64,
        place: *mut u64, count: *mut u64,
    ) -> u64;
    fn reckonbough_check(
        n: u64, m: u64,
        owners: *const u8, owners_room: usize,
        priorities: *const u16, priorities_room: usize,
        offsets: *const u16, offsets_room: usize,
        targets: *const u16, targets_room: usize,
        kept: *const u64, kept_length: usize,
        even: *const u64, even_length: usize,
        odd: *const u64, odd_length: usize,
        strategy: *const u16, strategy_length: usize,
        work: *mut u64, work_length: usize,
        place: *mut u64, count: *mut u64,
    ) -> u64;
    fn reckonbough_compact(
        n: u64, m: u64,
        owners: *const u8, owners_room: usize,
        priorities: *const u16, priorities_room: usize,
        offsets: *const u16, offsets_room: usize,
        targets: *const u16, targets_room: usize,
        kept: *const u64, kept_length: usize,
        new_priorities: *mut u16, new_priorities_length: usize,
        new_kept: *mut u64, new_kept_length: usize,
        place: *mut u64, count: *mut u64,
    ) -> u64;
    fn reckonbough_read(
        text: *const u8, text_length: usize,
        most_bytes: u64,
        owners: *mut u8, owners_length: usize,
        priorities: *mut u16, priorities_length: usize,
        offsets: *mut u16, offsets_length: usize,
        targets: *mut u16, targets_length: usize,
        kept: *mut u64, kept_length: usize,
        work: *mut u64, work_length: usize,
        n: *mut u64, m: *mut u64,
        place: *mut u64, count: *mut u64,
    ) -> u64;
    fn reckonbough_read_tables(
        text: *const u8, text_length: usize,
        most_bytes: u64,
        owners: *mut u8, owners_length: usize,
        priorities: *mut u16, priorities_length: usize,
        offsets: *mut u16, offsets_length: usize,
        targets: *mut u16, targets_length: usize,
        work: *mut u64, work_length: usize,
        n: *mut u64, m: *mut u64,
        place: *mut u64, count: *mut u64,
    ) -> u64;
    fn reckonbough_read_start(
        most_bytes: u64,
        state: *mut u64, state_length: usize,
        owners: *mut u8, owners_length: usize,
        priorities: *mut u16, priorities_length: usize,
        offsets: *mut u16, offsets_length: usize,
        targets: *mut u16, targets_length: usize,
        place: *mut u64, count: *mut u64,
    ) -> u64;
    fn reckonbough_read_portion(
        portion: *const u8, portion_length: usize,
        state: *mut u64, state_length: usize,
        owners: *mut u8, owners_length: usize,
        priorities: *mut u16, priorities_length: usize,
        offsets: *mut u16, offsets_length: usize,
        targets: *mut u16, targets_length: usize,
        place: *mut u64, count: *mut u64,
    ) -> u64;
    fn reckonbough_read_end(
        state: *mut u64, state_length: usize,
        owners: *mut u8, owners_length: usize,
        priorities: *mut u16, priorities_length: usize,
        offsets: *mut u16, offsets_length: usize,
        targets: *mut u16, targets_length: usize,
        kept: *mut u64, kept_length: usize,
        work: *mut u64, work_length: usize,
        n: *mut u64, m: *mut u64,
        place: *mut u64, count: *mut u64,
    ) -> u64;
    fn reckonbough_mend(
        owners: *const u8, owners_length: usize,
        priorities: *const u16, priorities_length: usize,
        offsets: *const u16, offsets_length: usize,
        targets: *const u16, targets_length: usize,
        new_priorities: *mut u16, new_priorities_length: usize,
        new_offsets: *mut u16, new_offsets_length: usize,
        new_targets: *mut u16, new_targets_length: usize,
        list: *mut u16, list_length: usize,
        place: *mut u64, count: *mut u64,
    ) -> u64;
    fn reckonbough_write(
        n: u64, m: u64,
        owners: *const u8, owners_room: usize,
        priorities: *const u16, priorities_room: usize,
        offsets: *const u16, offsets_room: usize,
        targets: *const u16, targets_room: usize,
        kept: *const u64, kept_length: usize,
        text: *mut u8, text_length: usize,
        place: *mut u64, count: *mut u64,
    ) -> u64;
    fn reckonbough_fresh_count(
        n: u64, m: u64,
        owners: *const u8, owners_room: usize,
        priorities: *const u16, priorities_room: usize,
        offsets: *const u16, offsets_room: usize,
        targets: *const u16, targets_room: usize,
        kept: *mut u64, kept_length: usize,
        place: *mut u64, count: *mut u64,
    ) -> u64;
    fn reckonbough_set_priority(
        n: u64, m: u64,
        owners: *const u8, owners_room: usize,
        priorities: *mut u16, priorities_room: usize,
        offsets: *const u16, offsets_room: usize,
        targets: *const u16, targets_room: usize,
        kept: *mut u64, kept_length: usize,
        vertex: u64, priority: u64,
        place: *mut u64, count: *mut u64,
    ) -> u64;
    fn reckonbough_set_owner(
        n: u64, m: u64,
        owners: *mut u8, owners_room: usize,
        priorities: *const u16, priorities_room: usize,
        offsets: *const u16, offsets_room: usize,
        targets: *const u16, targets_room: usize,
        kept: *const u64, kept_length: usize,
        vertex: u64, owner: u64,
        place: *mut u64, count: *mut u64,
    ) -> u64;
    fn reckonbough_turn_edge(
        n: u64, m: u64,
        owners: *const u8, owners_room: usize,
        priorities: *const u16, priorities_room: usize,
        offsets: *const u16, offsets_room: usize,
        targets: *mut u16, targets_room: usize,
        kept: *const u64, kept_length: usize,
        edge: u64, target: u64,
        place: *mut u64, count: *mut u64,
    ) -> u64;
}

/// Calls a C function with the tables, its own arguments, place and count.
macro_rules! call {
    ($function:ident, $tables:expr $(, $argument:expr)*) => {{
        let Tables { owners, priorities, offsets, targets } = $tables;
        let (mut place, mut count) = (0, 0);
        // SAFETY: every pointer comes with the length of the slice it was taken from. What is written to was lent by &mut,
        // so it overlaps nothing else. The function keeps no pointer and asks nothing of what the slices hold.
        let number = unsafe {
            $function(
                owners.as_ptr(), owners.len(), priorities.as_ptr(), priorities.len(),
                offsets.as_ptr(), offsets.len(), targets.as_ptr(), targets.len(),
                $($argument,)* &mut place, &mut count,
            )
        };
        Answer { number, place, count }
    }};
}

/// Calls a C function with the record, its own arguments, place and count.
macro_rules! call_on {
    ($function:ident, $record:expr $(, $argument:expr)*) => {{
        let Record { n, m, tables, kept } = $record;
        let Tables { owners, priorities, offsets, targets } = tables;
        let (mut place, mut count) = (0, 0);
        // SAFETY: every pointer comes with the length of the slice it was taken from. What is written to was lent by &mut,
        // so it overlaps nothing else. The function keeps no pointer and asks nothing of what the slices hold.
        let number = unsafe {
            $function(
                n, m,
                owners.as_ptr(), owners.len(), priorities.as_ptr(), priorities.len(),
                offsets.as_ptr(), offsets.len(), targets.as_ptr(), targets.len(), kept.as_ptr(), kept.len(),
                $($argument,)* &mut place, &mut count,
            )
        };
        Answer { number, place, count }
    }};
}

/// Checks the tables: 0, or 1 to 8.
pub fn check_tables(tables: Tables<'_>) -> Answer {
    call!(reckonbough_check_tables, tables)
}

/// The attractor of `target` in `within` for a player (0 Even, anything else Odd): 0, 1 to 8, 47, 9, 10 or 12; the count is looks.
pub fn attractor(
    record: Record<'_>,
    player: u8,
    within: &[u64],
    target: &[u64],
    result: &mut [u64],
    strategy: &mut [u16],
    distances: &mut [u16],
    work: &mut [u64],
) -> Answer {
    call_on! {
        reckonbough_attractor, record, player,
        within.as_ptr(), within.len(), target.as_ptr(), target.len(), result.as_mut_ptr(), result.len(),
        strategy.as_mut_ptr(), strategy.len(), distances.as_mut_ptr(), distances.len(), work.as_mut_ptr(), work.len()
    }
}

/// Solves by Zielonka's recursion: 0, 1 to 8, 47, 9, 10 or 13; the count is calls.
pub fn zielonka(
    record: Record<'_>,
    budget: u64,
    even: &mut [u64],
    odd: &mut [u64],
    strategy: &mut [u16],
    work: &mut [u64],
) -> Answer {
    call_on! {
        reckonbough_zielonka, record, budget,
        even.as_mut_ptr(), even.len(), odd.as_mut_ptr(), odd.len(),
        strategy.as_mut_ptr(), strategy.len(), work.as_mut_ptr(), work.len()
    }
}

/// Solves by priority promotion: 0, 1 to 8, 47, 9, 10 or 13; the count is rounds.
pub fn priority_promotion(
    record: Record<'_>,
    budget: u64,
    even: &mut [u64],
    odd: &mut [u64],
    strategy: &mut [u16],
    work: &mut [u64],
) -> Answer {
    call_on! {
        reckonbough_priority_promotion, record, budget,
        even.as_mut_ptr(), even.len(), odd.as_mut_ptr(), odd.len(),
        strategy.as_mut_ptr(), strategy.len(), work.as_mut_ptr(), work.len()
    }
}

/// A second opinion by the quasi-polynomial recursion, the sets alone, in [`opinion_words`] words or more: 0, 1 to 8, 47, 9 or 10.
pub fn quasi_polynomial(record: Record<'_>, even: &mut [u64], odd: &mut [u64], work: &mut [u64]) -> Answer {
    call_on! {
        reckonbough_quasi_polynomial, record,
        even.as_mut_ptr(), even.len(), odd.as_mut_ptr(), odd.len(), work.as_mut_ptr(), work.len()
    }
}

/// Solves a game with one owner, whose winning set is written: 0, 1 to 8, 47 or 9 to 11; the count is 0.
pub fn solitaire(record: Record<'_>, set: &mut [u64], work: &mut [u64]) -> Answer {
    call_on!(reckonbough_solitaire, record, set.as_mut_ptr(), set.len(), work.as_mut_ptr(), work.len())
}

/// Writes a run from a vertex of a game with one owner, a path to a cycle and the cycle, at the front of two lists of 2·n entries
/// or more; what is behind stays: 0, 1 to 8, 47, 10, 11, 44, 45 or 46; the count is both lengths together, and the path's comes with
/// the answer.
pub fn show_loop(record: Record<'_>, vertex: u64, path: &mut [u16], cycle: &mut [u16], work: &mut [u64]) -> (Answer, usize) {
    let mut path_length = 0;
    let answer = call_on! {
        reckonbough_show_loop, record, vertex,
        path.as_mut_ptr(), path.len(), cycle.as_mut_ptr(), cycle.len(), work.as_mut_ptr(), work.len(), &mut path_length
    };
    (answer, path_length as usize)
}

/// Checks a claim of winning sets and strategy: 0 for yes, 1 to 8, 47, 9, 10 or 21 to 25; the count is 0.
pub fn check(record: Record<'_>, even: &[u64], odd: &[u64], strategy: &[u16], work: &mut [u64]) -> Answer {
    call_on! {
        reckonbough_check, record,
        even.as_ptr(), even.len(), odd.as_ptr(), odd.len(),
        strategy.as_ptr(), strategy.len(), work.as_mut_ptr(), work.len()
    }
}

/// Writes the compacted priorities, and a fresh count of them: 0, 1 to 8, 47 or 9; the count is 0.
pub fn compact(record: Record<'_>, new_priorities: &mut [u16], new_kept: &mut [u64]) -> Answer {
    call_on! {
        reckonbough_compact, record,
        new_priorities.as_mut_ptr(), new_priorities.len(), new_kept.as_mut_ptr(), new_kept.len()
    }
}

/// The tables that a text is read into: their lengths are the limits on vertices and edges. `priorities` is as long as `owners`,
/// `offsets` one longer.
pub struct Rooms<'a> {
    /// Owners, a byte a vertex.
    pub owners: &'a mut [u8],
    /// Priorities.
    pub priorities: &'a mut [u16],
    /// Offsets.
    pub offsets: &'a mut [u16],
    /// Targets.
    pub targets: &'a mut [u16],
}

/// Calls one of the two readers, with the kept numbers where it writes them; n and m come with the answer.
macro_rules! read {
    ($function:ident, $text:expr, $most_bytes:expr, $rooms:expr, $work:ident $(, $kept:ident)?) => {{
        let (text, Rooms { owners, priorities, offsets, targets }) = ($text, $rooms);
        let (mut n, mut m, mut place, mut count) = (0, 0, 0, 0);
        // SAFETY: every pointer comes with the length of the slice it was taken from. What is written to was lent by &mut,
        // so it overlaps nothing else. The function keeps no pointer and asks nothing of what the slices hold.
        let number = unsafe {
            $function(
                text.as_ptr(), text.len(), $most_bytes,
                owners.as_mut_ptr(), owners.len(), priorities.as_mut_ptr(), priorities.len(),
                offsets.as_mut_ptr(), offsets.len(), targets.as_mut_ptr(), targets.len(),
                $($kept.as_mut_ptr(), $kept.len(),)?
                $work.as_mut_ptr(), $work.len(), &mut n, &mut m, &mut place, &mut count,
            )
        };
        (Answer { number, place, count }, n as usize, m as usize)
    }};
}

/// Reads a game from PGSolver text: 0, 9, 10, 30 or 32, 31, then 4, 5 or 7; with n and m. `kept`, [`KEPT`](crate::KEPT) numbers,
/// is a fresh count of the priorities afterwards. The work area is at least the room of owners and that of targets together.
pub fn read(
    text: &[u8],
    most_bytes: u64,
    rooms: Rooms<'_>,
    kept: &mut [u64],
    work: &mut [u64],
) -> (Answer, usize, usize) {
    read!(reckonbough_read, text, most_bytes, rooms, work, kept)
}

/// Reads what a PGSolver text says, also where it is no game: as [`read`], but no kept numbers and none of 1 to 8.
pub fn read_tables(text: &[u8], most_bytes: u64, rooms: Rooms<'_>, work: &mut [u64]) -> (Answer, usize, usize) {
    read!(reckonbough_read_tables, text, most_bytes, rooms, work)
}

/// A fresh start of a text that comes in portions: 0, 9 or 10. `state` is 32 words or more, to be handed back with the rooms as
/// the last call left them.
pub fn read_start(most_bytes: u64, state: &mut [u64], rooms: Rooms<'_>) -> Answer {
    let Rooms { owners, priorities, offsets, targets } = rooms;
    let (mut place, mut count) = (0, 0);
    // SAFETY: every pointer comes with the length of the slice it was taken from. What is written to was lent by &mut, so it
    // overlaps nothing else. The function keeps no pointer and asks nothing of what the slices hold.
    let number = unsafe {
        reckonbough_read_start(
            most_bytes, state.as_mut_ptr(), state.len(),
            owners.as_mut_ptr(), owners.len(), priorities.as_mut_ptr(), priorities.len(),
            offsets.as_mut_ptr(), offsets.len(), targets.as_mut_ptr(), targets.len(),
            &mut place, &mut count,
        )
    };
    Answer { number, place, count }
}

/// One portion more: 0, 9, 10, 30 or 32. After a refusal or the end it changes nothing and gives that outcome again.
pub fn read_portion(portion: &[u8], state: &mut [u64], rooms: Rooms<'_>) -> Answer {
    let Rooms { owners, priorities, offsets, targets } = rooms;
    let (mut place, mut count) = (0, 0);
    // SAFETY: every pointer comes with the length of the slice it was taken from. What is written to was lent by &mut, so it
    // overlaps nothing else. The function keeps no pointer and asks nothing of what the slices hold.
    let number = unsafe {
        reckonbough_read_portion(
            portion.as_ptr(), portion.len(), state.as_mut_ptr(), state.len(),
            owners.as_mut_ptr(), owners.len(), priorities.as_mut_ptr(), priorities.len(),
            offsets.as_mut_ptr(), offsets.len(), targets.as_mut_ptr(), targets.len(),
            &mut place, &mut count,
        )
    };
    Answer { number, place, count }
}

/// The end of the text: what [`read`] of the whole text gives and leaves; with n and m.
pub fn read_end(
    state: &mut [u64],
    rooms: Rooms<'_>,
    kept: &mut [u64],
    work: &mut [u64],
) -> (Answer, usize, usize) {
    let Rooms { owners, priorities, offsets, targets } = rooms;
    let (mut n, mut m, mut place, mut count) = (0, 0, 0, 0);
    // SAFETY: every pointer comes with the length of the slice it was taken from. What is written to was lent by &mut, so it
    // overlaps nothing else. The function keeps no pointer and asks nothing of what the slices hold.
    let number = unsafe {
        reckonbough_read_end(
            state.as_mut_ptr(), state.len(),
            owners.as_mut_ptr(), owners.len(), priorities.as_mut_ptr(), priorities.len(),
            offsets.as_mut_ptr(), offsets.len(), targets.as_mut_ptr(), targets.len(),
            kept.as_mut_ptr(), kept.len(),
            work.as_mut_ptr(), work.len(), &mut n, &mut m, &mut place, &mut count,
        )
    };
    (Answer { number, place, count }, n as usize, m as usize)
}

/// Writes the mended tables and the list of what was done: 0, 1 to 6, 3 too where the result has too many edges, or 35; the
/// count is the list's length. n priorities, n + 1 offsets, m + n targets and a list of m + 2·n are always enough.
pub fn mend(
    tables: Tables<'_>,
    new_priorities: &mut [u16],
    new_offsets: &mut [u16],
    new_targets: &mut [u16],
    list: &mut [u16],
) -> Answer {
    call! {
        reckonbough_mend, tables,
        new_priorities.as_mut_ptr(), new_priorities.len(), new_offsets.as_mut_ptr(), new_offsets.len(),
        new_targets.as_mut_ptr(), new_targets.len(), list.as_mut_ptr(), list.len()
    }
}

/// Writes the game as PGSolver text at the front of `text`; what is behind stays: 0, 1 to 8, 47, 33 or 34; the count is the text's
/// length. [`MAX_TEXT`](crate::MAX_TEXT) bytes are enough for every game.
pub fn write(record: Record<'_>, text: &mut [u8]) -> Answer {
    call_on!(reckonbough_write, record, text.as_mut_ptr(), text.len())
}

/// Counts the priorities of a record afresh: 0, 1 to 8, or 9 for a kept that is not [`KEPT`](crate::KEPT) numbers.
#[rustfmt::skip]
#[allow(clippy::too_many_arguments)]
pub fn fresh_count(
    n: u64,
    m: u64,
    owners: &[u8],
    priorities: &[u16],
    offsets: &[u16],
    targets: &[u16],
    kept: &mut [u64],
) -> Answer {
    let (mut place, mut count) = (0, 0);
    // SAFETY: as for the functions on tables.
    let number = unsafe {
        reckonbough_fresh_count(
            n, m,
            owners.as_ptr(), owners.len(),
            priorities.as_ptr(), priorities.len(),
            offsets.as_ptr(), offsets.len(),
            targets.as_ptr(), targets.len(),
            kept.as_mut_ptr(), kept.len(),
            &mut place, &mut count,
        )
    };
    Answer { number, place, count }
}

/// Sets the priority of a vertex of a record, and its kept numbers: 0, 1 to 8, 47, 41 or 42.
#[rustfmt::skip]
#[allow(clippy::too_many_arguments)]
pub fn set_priority(
    n: u64,
    m: u64,
    owners: &[u8],
    priorities: &mut [u16],
    offsets: &[u16],
    targets: &[u16],
    kept: &mut [u64],
    vertex: u64,
    priority: u64,
) -> Answer {
    let (mut place, mut count) = (0, 0);
    // SAFETY: as for the functions on tables.
    let number = unsafe {
        reckonbough_set_priority(
            n, m,
            owners.as_ptr(), owners.len(),
            priorities.as_mut_ptr(), priorities.len(),
            offsets.as_ptr(), offsets.len(),
            targets.as_ptr(), targets.len(),
            kept.as_mut_ptr(), kept.len(),
            vertex, priority, &mut place, &mut count,
        )
    };
    Answer { number, place, count }
}

/// Sets the owner of a vertex of a record: 0, 1 to 8, 47, 41 or 48.
#[rustfmt::skip]
#[allow(clippy::too_many_arguments)]
pub fn set_owner(
    n: u64,
    m: u64,
    owners: &mut [u8],
    priorities: &[u16],
    offsets: &[u16],
    targets: &[u16],
    kept: &[u64],
    vertex: u64,
    owner: u64,
) -> Answer {
    let (mut place, mut count) = (0, 0);
    // SAFETY: as for the functions on tables.
    let number = unsafe {
        reckonbough_set_owner(
            n, m,
            owners.as_mut_ptr(), owners.len(),
            priorities.as_ptr(), priorities.len(),
            offsets.as_ptr(), offsets.len(),
            targets.as_ptr(), targets.len(),
            kept.as_ptr(), kept.len(),
            vertex, owner, &mut place, &mut count,
        )
    };
    Answer { number, place, count }
}

/// Turns an edge of a record to another target: 0, 1 to 8, 47, 41 or 43.
#[rustfmt::skip]
#[allow(clippy::too_many_arguments)]
pub fn turn_edge(
    n: u64,
    m: u64,
    owners: &[u8],
    priorities: &[u16],
    offsets: &[u16],
    targets: &mut [u16],
    kept: &[u64],
    edge: u64,
    target: u64,
) -> Answer {
    let (mut place, mut count) = (0, 0);
    // SAFETY: as for the functions on tables.
    let number = unsafe {
        reckonbough_turn_edge(
            n, m,
            owners.as_ptr(), owners.len(),
            priorities.as_ptr(), priorities.len(),
            offsets.as_ptr(), offsets.len(),
            targets.as_mut_ptr(), targets.len(),
            kept.as_ptr(), kept.len(),
            edge, target, &mut place, &mut count,
        )
    };
    Answer { number, place, count }
}
