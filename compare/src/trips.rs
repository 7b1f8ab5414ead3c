//! Games written by the port's door, as text by plain code, and read again by the other door.

use crate::game::Game;
use crate::generate;
use crate::port::{self, Rooms};

/// What stands behind a text.
const BEHIND: u8 = b'.';

/// Game number `seed`, written, read and written again; the error says what differs.
pub fn compare(seed: u64) -> Result<(), String> {
    let mut game = if seed % 200 == 0 { generate::large(seed / 200) } else { generate::random(seed) };
    if seed % 3 == 0 {
        compact(&mut game);
    }
    let plain = text_of(&game);
    let mut text = vec![BEHIND; plain.len() + 3];
    let kept = port::fresh(&game.priorities);
    let answer = port::write(&game, &kept, &mut text);
    if answer.number != 0 || answer.count != plain.len() as u64 || text[..plain.len()] != plain[..] {
        return Err(format!("written otherwise: {answer:?}, {game:?}"));
    }
    if text[plain.len()..] != [BEHIND; 3] {
        return Err(format!("written behind the text: {game:?}"));
    }
    let short = port::write(&game, &kept, &mut text[..plain.len() - 1]);
    if (short.number, short.place, short.count) != (34, plain.len() as u64, 0) {
        return Err(format!("one byte too few gets {short:?}: {game:?}"));
    }
    let mut rooms = Rooms::filled(game.n(), game.m(), 0xa5);
    let answer = port::read(&plain, plain.len() as u64, &mut rooms);
    let tables = (&rooms.owners, &rooms.priorities, &rooms.offsets, &rooms.targets);
    if answer.number != 0 || tables != (&game.owners, &game.priorities, &game.offsets, &game.targets) {
        return Err(format!("read otherwise: {answer:?}, {rooms:?}, {game:?}"));
    }
    Ok(())
}

/// The game with the priorities that compaction gives it.
fn compact(game: &mut Game) {
    let mut lent = port::Lent::junk(game);
    if port::compact(game, &mut lent).number == 0 {
        game.priorities = lent.strategy;
    }
}

/// The text that A3 fixes, by plain code.
pub fn text_of(game: &Game) -> Vec<u8> {
    let mut text = format!("parity {};\n", game.n() - 1);
    for v in 0..game.n() {
        let targets: Vec<String> = game.edges(v).iter().map(u16::to_string).collect();
        text += &format!("{v} {} {} {};\n", game.priorities[v], game.owners[v], targets.join(","));
    }
    text.into_bytes()
}
