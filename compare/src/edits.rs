//! Sequences of edits through the port's doors, each compared with plain edits of a game that is counted afresh.

use crate::game::Game;
use crate::generate::{self, Numbers};
use crate::port::{self, fresh, Record};

/// Edits of one sequence.
const EDITS: usize = 12;

/// A record of the game with junk in the room behind it.
fn record_of(game: &Game, numbers: &mut Numbers) -> Record {
    let mut record = Record { n: game.n() as u64, m: game.m() as u64, tables: game.clone(), kept: fresh(&game.priorities) };
    for _ in 0..numbers.below(3) {
        record.tables.owners.push(0xa5);
        record.tables.priorities.push(0xa5a5);
        record.tables.offsets.push(0x5a5a);
        record.tables.targets.push(0x7777);
    }
    record
}

/// The number and the place of an edit's own refusals, 0 and 0 where there is none.
fn refusal(size: u64, entry: u64, value: u64, limit: u64, number: u64) -> (u64, u64) {
    match (entry < size, value < limit) {
        (false, _) => (41, entry),
        (true, false) => (number, entry),
        (true, true) => (0, 0),
    }
}

/// Sequence number `seed`; gives how many of its edits were refused, and the error says what differs.
pub fn compare(seed: u64) -> Result<u64, String> {
    let mut numbers = Numbers::new(seed);
    let game = generate::random(seed);
    let mut record = record_of(&game, &mut numbers);
    let mut expected = record.clone();
    let counted = port::fresh_count(&mut record);
    if counted.number != 0 || record != expected {
        return Err(format!("counted otherwise: {counted:?}, {game:?}"));
    }
    let (n, m) = (record.n, record.m);
    let mut refused = 0;
    for _ in 0..EDITS {
        let entry = |size: u64, numbers: &mut Numbers| if numbers.one_in(9) { size + numbers.next() % 3 } else { numbers.next() % size };
        let (answer, said) = match numbers.below(3) {
            0 => {
                let (v, p) = (entry(n, &mut numbers), if numbers.one_in(9) { numbers.next() } else { numbers.next() % 258 });
                let said = refusal(n, v, p, 256, 42);
                if said.0 == 0 {
                    expected.tables.priorities[v as usize] = p as u16;
                    expected.kept = fresh(&expected.tables.priorities[..n as usize]);
                }
                (port::set_priority(&mut record, v, p), said)
            }
            1 => {
                let (v, o) = (entry(n, &mut numbers), numbers.next() % 3);
                let said = refusal(n, v, o, 2, 48);
                if said.0 == 0 {
                    expected.tables.owners[v as usize] = o as u8;
                }
                (port::set_owner(&mut record, v, o), said)
            }
            _ => {
                let (e, w) = (entry(m, &mut numbers), entry(n, &mut numbers));
                let said = refusal(m, e, w, n, 43);
                if said.0 == 0 {
                    expected.tables.targets[e as usize] = w as u16;
                }
                (port::turn_edge(&mut record, e, w), said)
            }
        };
        if (answer.number, answer.place, answer.count) != (said.0, said.1, 0) || record != expected {
            return Err(format!("{answer:?} where {said:?} is due, or left otherwise: {record:?}, {expected:?}"));
        }
        refused += u64::from(said.0 != 0);
    }
    let at = numbers.below(258);
    record.kept[at] ^= 1;
    expected.kept[at] ^= 1;
    let stale = port::set_owner(&mut record, 0, 0);
    if (stale.number, stale.place, stale.count) != (47, 0, 0) || record != expected {
        return Err(format!("kept number {at} is wrong, and {stale:?} is given: {record:?}"));
    }
    Ok(refused)
}
