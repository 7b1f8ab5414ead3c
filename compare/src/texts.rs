//! Random texts, whole and damaged, read by the port's doors and by the plain reader: number, place and every lent entry.

use crate::game::Game;
use crate::generate::Numbers;
use crate::port::{self, fresh, Rooms};
use crate::reader::{self, Limits};
use crate::reference::Answer;

/// The door that writes kept numbers too.
const READ: &str = "read";

/// What stands in the rooms before a door is called.
const JUNK: u8 = 0xa5;

/// How often each number was given.
pub type Tally = std::collections::BTreeMap<u64, u64>;

/// Text number `seed` and the rooms for it; the error says what differs.
pub fn compare(seed: u64, tally: &mut Tally) -> Result<(), String> {
    let mut numbers = Numbers::new(seed);
    let text = damaged(whole(&mut numbers), &mut numbers);
    let vertices = if numbers.one_in(3) { numbers.below(12) } else { 128 };
    let edges = if numbers.one_in(3) { numbers.below(24) } else { 512 };
    let bytes = if numbers.one_in(4) { numbers.below(text.len() + 2) } else { 16_384 };
    let limits = Limits { bytes, vertices, edges };
    for (name, want, door) in [
        (READ, reader::read(&text, limits), port::read as fn(&[u8], u64, &mut Rooms) -> Answer),
        ("read_tables", reader::read_tables(&text, limits), port::read_tables),
    ] {
        let mut rooms = Rooms::filled(vertices, edges, JUNK);
        let got = door(&text, bytes as u64, &mut rooms);
        let (answer, game) = match want {
            Ok(game) => (Answer::yes(0), Some(game)),
            Err(answer) => (answer, None),
        };
        *tally.entry(answer.number).or_default() += 1;
        let kept = match &game {
            _ if name != READ => vec![u64::from_ne_bytes([JUNK; 8]); 258],
            Some(game) => fresh(&game.priorities),
            None => vec![0; 258],
        };
        let expected = Rooms { kept, ..left(game.as_ref(), vertices, edges) };
        if got != answer || rooms != expected {
            let shown = String::from_utf8_lossy(&text);
            let wanted = format!("wanted {answer:?} and {game:?}, got {got:?} and {rooms:?}");
            return Err(format!("{name} of {shown:?} within {limits:?}: {wanted}"));
        }
    }
    refused_rooms(&text, vertices, edges)
}

/// What a call leaves: the tables with zero behind them, or zero everywhere; the used words of the work area zero.
fn left(game: Option<&Game>, vertices: usize, edges: usize) -> Rooms {
    let mut rooms = Rooms::filled(vertices, edges, 0);
    let used = vertices + edges;
    rooms.work[used..].fill(u64::from_ne_bytes([JUNK; 8]));
    if let Some(game) = game {
        rooms.owners[..game.n()].copy_from_slice(&game.owners);
        rooms.priorities[..game.n()].copy_from_slice(&game.priorities);
        rooms.offsets[..=game.n()].copy_from_slice(&game.offsets);
        rooms.targets[..game.m()].copy_from_slice(&game.targets);
        (rooms.n, rooms.m) = (game.n() as u64, game.m() as u64);
    }
    rooms
}

/// 9 and 10 come before the text and write nothing.
fn refused_rooms(text: &[u8], vertices: usize, edges: usize) -> Result<(), String> {
    let spoil: [(u64, fn(&mut Rooms)); 6] = [
        (9, |rooms| rooms.kept.truncate(257)),
        (9, |rooms| rooms.kept.push(7)),
        (9, |rooms| rooms.priorities.push(7)),
        (9, |rooms| rooms.offsets.truncate(rooms.owners.len())),
        (9, |rooms| rooms.owners.push(7)),
        (10, |rooms| rooms.work.truncate((rooms.owners.len() + rooms.targets.len()).saturating_sub(1))),
    ];
    for (number, damage) in spoil {
        let mut rooms = Rooms::filled(vertices, edges, JUNK);
        damage(&mut rooms);
        if number == 10 && vertices + edges == 0 {
            continue;
        }
        let before = rooms.clone();
        let got = port::read(text, 16_384, &mut rooms);
        if got != Answer::no(number, 0) || rooms != before {
            return Err(format!("rooms of {vertices} and {edges}: wanted {number} and nothing written, got {got:?}"));
        }
    }
    Ok(())
}

/// A text of the grammar, of a small game or, now and then, of one about the size of the limits.
fn whole(numbers: &mut Numbers) -> Vec<u8> {
    let n = if numbers.one_in(20) { numbers.between(120, 130) } else { numbers.between(1, 12) };
    let most = if numbers.one_in(10) { 9 } else { 4 };
    let mut identifiers: Vec<usize> = (0..n).collect();
    for at in (1..n).rev() {
        identifiers.swap(at, numbers.below(at + 1));
    }
    if numbers.one_in(12) {
        let at = numbers.below(n);
        identifiers[at] = numbers.below(n + 2);
    }
    let mut text = Vec::new();
    blank(&mut text, numbers);
    if !numbers.one_in(3) {
        text.extend(b"parity");
        gap(&mut text, numbers);
        let highest = if numbers.one_in(12) { numbers.below(n + 2) } else { n - 1 };
        number(&mut text, highest, numbers);
        mark(&mut text, b';', numbers);
    }
    for identifier in identifiers {
        let odd_owner = if numbers.one_in(80) { numbers.between(2, 300) } else { numbers.below(2) };
        let priority = if numbers.one_in(80) { numbers.between(250, 66_000) } else { numbers.below(9) };
        for field in [identifier, priority, odd_owner] {
            number(&mut text, field, numbers);
            gap(&mut text, numbers);
        }
        for edge in 0..numbers.between(1, most) {
            if edge > 0 {
                mark(&mut text, b',', numbers);
            }
            let target = if numbers.one_in(200) { numbers.below(70_000) } else { numbers.below(n) };
            number(&mut text, target, numbers);
        }
        if numbers.one_in(4) {
            blank(&mut text, numbers);
            text.push(b'"');
            (0..numbers.below(5)).for_each(|_| text.push([b'a', b';', b' ', 0, 0xff][numbers.below(5)]));
            text.push(b'"');
        }
        mark(&mut text, b';', numbers);
    }
    text
}

fn gap(text: &mut Vec<u8>, numbers: &mut Numbers) {
    text.push(b" \t\r\n"[numbers.below(4)]);
    blank(text, numbers);
}

fn blank(text: &mut Vec<u8>, numbers: &mut Numbers) {
    while numbers.one_in(5) {
        text.push(b" \t\r\n"[numbers.below(4)]);
    }
}

fn mark(text: &mut Vec<u8>, mark: u8, numbers: &mut Numbers) {
    blank(text, numbers);
    text.push(mark);
    blank(text, numbers);
}

fn number(text: &mut Vec<u8>, value: usize, numbers: &mut Numbers) {
    while numbers.one_in(20) {
        text.push(b'0');
    }
    text.extend(value.to_string().bytes());
}

/// Half of the texts stay; the others have bytes changed, left out, doubled or put in, or are cut.
fn damaged(mut text: Vec<u8>, numbers: &mut Numbers) -> Vec<u8> {
    if numbers.one_in(2) {
        return text;
    }
    for _ in 0..numbers.between(1, 3) {
        let at = numbers.below(text.len().max(1));
        let byte = b" \n0195,;\"pyz-\0\xff"[numbers.below(15)];
        match numbers.below(5) {
            _ if text.is_empty() => text.push(byte),
            0 => text[at] = byte,
            1 => {
                text.remove(at);
            }
            2 => text.insert(at, text[at]),
            3 => text.insert(at, byte),
            _ => text.truncate(at),
        }
    }
    text
}
