//! Texts: read, written, and mended where an export is only half written.

use reckonbough::doors::{self, Rooms};
use reckonbough::{Export, Game, Player::*, Refusal, Tables};

const C7: &[u8] = b"parity 1; 0 2 0 1; 1 0 1 0,1;";

#[test]
fn a_text_is_read_and_written_in_its_one_form() {
    let game = Game::read(C7).unwrap();
    assert_eq!(game, Game::new(&[(Even, 2, &[1]), (Odd, 0, &[0, 1])]).unwrap());
    let text = game.write().unwrap();
    assert_eq!(text, b"parity 1;\n0 2 0 1;\n1 0 1 0,1;\n");
    assert_eq!(Game::read(&text), Ok(game));
}

#[test]
fn a_compacted_game_is_written_and_read_again() {
    let game = Game::read(b"0 2 0 1; 1 6 1 0;").unwrap();
    let priorities = game.compact().unwrap();
    assert_eq!(priorities, [0, 0]);
    let tables = game.tables();
    let compacted = Game::from_tables(
        tables.owners.to_vec(),
        priorities,
        tables.offsets.to_vec(),
        tables.targets.to_vec(),
    )
    .unwrap();
    assert_eq!(Game::read(&compacted.write().unwrap()), Ok(compacted));
}

#[test]
fn refusals_of_a_text_have_their_place() {
    assert_eq!(Game::read(b""), Err(Refusal::BadText(0)));
    assert_eq!(Game::read(b"parity1;"), Err(Refusal::BadText(6)));
    assert_eq!(Game::read(b"0 0 0 65536;"), Err(Refusal::BeyondLimit(10)));
    assert_eq!(Game::read(b"0 0 0 0; 0 0 0 0;"), Err(Refusal::BadIdentifier(0)));
    assert_eq!(Game::read(b"parity 1; 0 0 0 0;"), Err(Refusal::BadIdentifier(1)));
    assert_eq!(Game::read(b"0 0 2 0;"), Err(Refusal::BadOwner(0)));
    assert_eq!(Game::read(b"0 256 0 0;"), Err(Refusal::BadPriority(0)));
    assert_eq!(Game::read(b"0 0 0 1;"), Err(Refusal::BadTarget(0)));
}

/// Vertex 1 leads to a vertex that is missing: the text is read all the same, mended, and solved.
#[test]
fn a_half_written_export_is_read_mended_and_solved() {
    let text = b"parity 1;\n0 2 0 1;\n1 4 1 7;\n";
    assert_eq!(Game::read(text), Err(Refusal::BadTarget(1)));
    let (mut owners, mut priorities, mut offsets, mut targets) = ([9; 8], [9; 8], [9; 9], [9; 8]);
    let rooms = Rooms { owners: &mut owners, priorities: &mut priorities, offsets: &mut offsets, targets: &mut targets };
    let (answer, n, m) = doors::read_tables(text, 100, rooms, &mut [0; 16]);
    assert_eq!((answer.result(), n, m), (Ok(0), 2, 2));
    let tables = Tables {
        owners: &owners[..n],
        priorities: &priorities[..n],
        offsets: &offsets[..=n],
        targets: &targets[..m],
    };
    let mended = Game::mend(tables).unwrap();
    assert_eq!((&mended.dropped[..], &mended.altered[..]), (&[1][..], &[(1, 4)][..]));
    let solved = mended.game.solve_zielonka(u64::MAX).unwrap();
    assert_eq!(solved.even, [true, true]);
    assert_eq!(mended.game.check(&solved.even, &solved.odd, &solved.strategy), Ok(()));
}

#[test]
fn an_export_has_what_the_text_says() {
    let export = Export::read(b"1 300 7 9,0; 0 2 0 1;").unwrap();
    let said = Tables { owners: &[0, 7], priorities: &[2, 300], offsets: &[0, 1, 3], targets: &[1, 9, 0] };
    assert_eq!(export.tables(), said);
    assert_eq!(Export::read(b"0 0 0;"), Err(Refusal::BadText(5)));
    assert_eq!(Export::read(b"1 0 0 0;"), Err(Refusal::BadIdentifier(0)));
}
