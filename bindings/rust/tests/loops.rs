//! Runs in a game that one player owns: a path alone, a self loop, what is refused and what that leaves.
#![forbid(unsafe_code)]

use reckonbough::doors::{self, work_words};
use reckonbough::Player::{Even, Odd};
use reckonbough::{Game, Refusal, Run};

/// C8: Even owns all; 0 and 2 lead to 1, 1 leads to 2, and 3 is a self loop of priority 3.
fn c8() -> Game {
    Game::new(&[(Even, 1, &[1]), (Even, 2, &[2]), (Even, 1, &[1]), (Even, 3, &[3])]).unwrap()
}

#[test]
fn a_run_from_each_vertex_that_is_won() {
    let game = c8();
    let won = game.solve_solitaire_game().unwrap();
    assert_eq!(game.show_loop(0), Ok(Run { path: vec![0, 1], cycle: vec![1, 2] }));
    assert_eq!(game.show_loop(1), Ok(Run { path: vec![1], cycle: vec![1, 2] }));
    assert_eq!(game.show_loop(2), Ok(Run { path: vec![2, 1], cycle: vec![1, 2] }));
    assert_eq!((0..4).map(|v| game.show_loop(v).is_ok()).collect::<Vec<_>>(), won);
}

#[test]
fn a_self_loop_is_a_cycle_alone() {
    let game = Game::new(&[(Odd, 0, &[1]), (Odd, 5, &[1, 0])]).unwrap();
    assert_eq!(game.show_loop(0), Ok(Run { path: vec![0, 1], cycle: vec![1] }));
}

#[test]
fn what_is_refused() {
    let game = c8();
    assert_eq!(game.show_loop(3), Err(Refusal::NoLoop(3)));
    assert_eq!(game.show_loop(4), Err(Refusal::NoSuchVertex(4)));
    assert_eq!(Game::new(&[]).unwrap().show_loop(0), Err(Refusal::NoSuchVertex(0)));
    let two = Game::new(&[(Even, 2, &[1]), (Odd, 0, &[0, 1])]).unwrap();
    assert_eq!(two.show_loop(7), Err(Refusal::OwnersDiffer));
}

#[test]
fn a_refusal_leaves_the_lists() {
    let game = c8();
    let mut work = vec![7; work_words(4, 4) + 1];
    for (vertex, path_room, number) in [(0, 7, 45), (3, 8, 46), (u64::MAX, 8, 44)] {
        let (mut path, mut cycle) = (vec![9; path_room], vec![9; 8]);
        let (answer, length) = doors::show_loop(game.record(), vertex, &mut path, &mut cycle, &mut work);
        assert_eq!((answer.number, answer.count, length), (number, 0, 0));
        assert!(path.iter().chain(&cycle).all(|entry| *entry == 9));
        assert_eq!(work.iter().all(|word| *word == 7), number == 45, "only 45 came before the work area was used");
        assert_eq!(work[work_words(4, 4)], 7);
    }
}
