//! Edits of a game: each is that of a game made anew, and a refused one changes nothing.

use reckonbough::{Edit, Game, Player, Refusal};

fn c7() -> Game {
    Game::new(&[(Player::Even, 2, &[1]), (Player::Odd, 0, &[0, 1])]).unwrap()
}

#[test]
fn an_edited_game_is_the_game_made_anew() {
    let mut game = c7();
    game.set_priority(0, 1).unwrap();
    game.set_owner(0, Player::Odd).unwrap();
    game.turn_edge(2, 0).unwrap();
    assert_eq!(game, Game::new(&[(Player::Odd, 1, &[1]), (Player::Odd, 0, &[0, 0])]).unwrap());
    assert_eq!((&game.kept()[..3], &game.kept()[256..]), (&[1, 1, 0][..], &[2, 1][..]));
}

#[test]
fn a_refused_edit_changes_nothing() {
    let mut game = c7();
    assert_eq!(game.set_priority(2, 256), Err(Refusal::NoSuchEntry(2)));
    assert_eq!(game.set_priority(1, 256), Err(Refusal::HighPriority(1)));
    assert_eq!(game.set_owner(7, Player::Even), Err(Refusal::NoSuchEntry(7)));
    assert_eq!(game.turn_edge(3, 0), Err(Refusal::NoSuchEntry(3)));
    assert_eq!(game.turn_edge(0, 2), Err(Refusal::NoSuchTarget(0)));
    assert_eq!(game.edit(Edit::Owner { vertex: 1, owner: 2 }), Err(Refusal::NoSuchOwner(1)));
    assert_eq!(game.edit(Edit::Priority { vertex: 0, priority: u64::MAX }), Err(Refusal::HighPriority(0)));
    assert_eq!(game, c7());
}

#[test]
fn the_highest_priority_falls_to_the_next() {
    let mut game = c7();
    game.set_priority(0, 0).unwrap();
    assert_eq!((game.kept()[0], game.kept()[2], game.kept()[256], game.kept()[257]), (2, 0, 1, 0));
    game.set_priority(1, 255).unwrap();
    assert_eq!((game.kept()[0], game.kept()[255], game.kept()[256], game.kept()[257]), (1, 1, 2, 255));
}
