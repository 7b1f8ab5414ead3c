//! One work area for many calls: every method gives what it gives in a work area of its own.
#![forbid(unsafe_code)]

use reckonbough::Player::{self, Even, Odd};
use reckonbough::{Game, Refusal, WorkArea, MAX_EDGES, MAX_VERTICES};

/// n vertices, each with `out` edges, by numbers that are the same on every machine.
fn made(n: usize, out: usize, owner: Option<Player>) -> Game {
    let mut seed = (n * 64 + out) as u64;
    let mut below = |bound: usize| {
        seed = seed.wrapping_mul(6_364_136_223_846_793_005).wrapping_add(1_442_695_040_888_963_407);
        (seed >> 33) as usize % bound
    };
    let targets: Vec<Vec<u16>> = (0..n).map(|_| (0..out).map(|_| below(n) as u16).collect()).collect();
    let mut player = || owner.unwrap_or(if below(2) == 0 { Even } else { Odd });
    let vertices: Vec<(Player, u16, &[u16])> =
        targets.iter().enumerate().map(|(v, to)| (player(), (v * 7 % 256) as u16, &to[..])).collect();
    Game::new(&vertices).unwrap()
}

fn same(game: &Game, work: &mut WorkArea) {
    for budget in [1, u64::MAX] {
        assert_eq!(game.solve_zielonka_in(budget, work), game.solve_zielonka(budget));
        assert_eq!(game.solve_priority_promotion_in(budget, work), game.solve_priority_promotion(budget));
    }
    let solved = game.solve_zielonka(u64::MAX).unwrap();
    assert_eq!(game.check_in(&solved.even, &solved.odd, &solved.strategy, work), Ok(()));
    assert_eq!(game.check_in(&solved.odd, &solved.even, &solved.strategy, work).is_ok(), game.vertices() == 0);
    assert_eq!(game.solve_quasi_polynomial_in(work), game.solve_quasi_polynomial());
    let (all, target) = (vec![true; game.vertices()], solved.even);
    assert_eq!(game.attractor_in(Odd, &all, &target, work), game.attractor(Odd, &all, &target));
    assert_eq!(game.attractor_in(Odd, &[], &[true], work), Err(Refusal::BadSize));
    assert_eq!(game.solve_solitaire_game_in(work), game.solve_solitaire_game());
    for vertex in 0..game.vertices().min(3) {
        assert_eq!(game.show_loop_in(vertex, work), game.show_loop(vertex));
    }
}

#[test]
fn games_of_all_sizes_one_after_another() {
    let mut work = WorkArea::new();
    for (n, out) in [(3, 2), (200, 3), (1, 1), (0, 0), (65, 1), (129, 4), (64, 2)] {
        same(&made(n, out, None), &mut work);
        same(&made(n, out, Some(Odd)), &mut work);
    }
}

#[test]
fn a_small_game_after_the_largest() {
    let mut work = WorkArea::new();
    let largest = made(MAX_VERTICES, MAX_EDGES / MAX_VERTICES, None);
    assert_eq!(largest.edges(), MAX_EDGES);
    let solved = largest.solve_zielonka_in(u64::MAX, &mut work).unwrap();
    assert_eq!(largest.check_in(&solved.even, &solved.odd, &solved.strategy, &mut work), Ok(()));
    same(&made(10, 2, None), &mut work);
    assert_eq!(largest.solve_priority_promotion_in(u64::MAX, &mut work).unwrap().even, solved.even);
}
