//! The worked games C1 to C11, through `Game`.
#![forbid(unsafe_code)]

use reckonbough::Player::{self, Even, Odd};
use reckonbough::{Game, Refusal, Solved};

const ANY: u64 = u64::MAX;

fn game(vertices: &[(Player, u16, &[u16])]) -> Game {
    Game::new(vertices).expect("the worked games are lawful")
}

fn c5() -> Game {
    game(&[(Odd, 1, &[1, 1]), (Even, 2, &[1])])
}

fn c6() -> Game {
    game(&[(Even, 2, &[1]), (Odd, 1, &[1])])
}

fn c7() -> Game {
    game(&[(Even, 2, &[1]), (Odd, 0, &[0, 1])])
}

fn c8() -> Game {
    game(&[(Even, 1, &[1]), (Even, 2, &[2]), (Even, 1, &[1]), (Even, 3, &[3])])
}

/// The answer has these winners and this count, each vertex one winner, and the checker says yes to it.
fn expect(game: &Game, solved: Solved, winners: &[Player], count: u64) {
    assert_eq!(solved.count, count);
    assert_eq!((0..game.vertices()).map(|v| solved.winner(v)).collect::<Vec<_>>(), winners);
    assert!((0..game.vertices()).all(|v| solved.even[v] != solved.odd[v]));
    assert_eq!(game.check(&solved.even, &solved.odd, &solved.strategy), Ok(()));
}

/// Both solvers, with a budget that is just enough and with one that is not; and the second opinion.
fn solve(game: &Game, winners: &[Player], calls: u64, rounds: u64) {
    let opinion = game.solve_quasi_polynomial();
    assert_eq!(opinion.even, winners.iter().map(|winner| *winner == Even).collect::<Vec<_>>());
    assert_eq!(opinion.odd, winners.iter().map(|winner| *winner == Odd).collect::<Vec<_>>());
    expect(game, game.solve_zielonka(calls).unwrap(), winners, calls);
    expect(game, game.solve_priority_promotion(rounds).unwrap(), winners, rounds);
    assert_eq!(game.solve_zielonka(calls - 1), Err(Refusal::OverBudget));
    if rounds > 0 {
        assert_eq!(game.solve_priority_promotion(rounds - 1), Err(Refusal::OverBudget));
    }
}

#[test]
fn c1_has_no_vertex() {
    solve(&game(&[]), &[], 1, 0);
    assert_eq!(game(&[]).solve_solitaire_game(), Ok(vec![]));
}

#[test]
fn c2_is_won_by_its_owner() {
    solve(&game(&[(Even, 0, &[0])]), &[Even], 2, 1);
}

#[test]
fn c3_is_lost_by_its_owner() {
    let c3 = game(&[(Even, 1, &[0])]);
    solve(&c3, &[Odd], 2, 1);
    assert_eq!(c3.solve_zielonka(ANY).unwrap().strategy, [None]);
}

#[test]
fn c4_is_odds() {
    solve(&game(&[(Even, 0, &[1]), (Odd, 1, &[0, 1])]), &[Odd, Odd], 2, 1);
}

#[test]
fn c5_counts_parallel_edges() {
    solve(&c5(), &[Even, Even], 2, 1);
    let attracted = c5().attractor(Even, &[true, true], &[false, true]).unwrap();
    assert_eq!((attracted.set, attracted.looks), (vec![true, true], 3));
    assert_eq!(attracted.strategy, [None, None]);
    assert_eq!(attracted.distances, [Some(1), Some(0)]);
}

#[test]
fn c6_needs_four_calls() {
    solve(&c6(), &[Odd, Odd], 4, 2);
    assert_eq!(c6().solve_zielonka(3), Err(Refusal::OverBudget));
}

#[test]
fn c7_promotes() {
    solve(&c7(), &[Even, Even], 3, 3);
    assert_eq!(c7().solve_priority_promotion(ANY).unwrap().strategy, [Some(1), None]);
}

#[test]
fn c8_is_a_solitaire_game() {
    solve(&c8(), &[Even, Even, Even, Odd], 5, 2);
    assert_eq!(c8().solve_solitaire_game(), Ok(vec![true, true, true, false]));
}

#[test]
fn c9_has_a_lone_vertex_that_is_no_cycle() {
    let c9 = game(&[(Even, 2, &[1]), (Even, 1, &[1])]);
    assert_eq!(c9.solve_solitaire_game(), Ok(vec![false, false]));
    assert_eq!(c9.solve_zielonka(ANY).unwrap().count, 4);
}

#[test]
fn c10_false_claims_on_c6() {
    let claim = c6().check(&[true, true], &[false, false], &[Some(1), None]);
    assert_eq!(claim, Err(Refusal::LosingCycle(1)));
    let claim = c6().check(&[true, false], &[false, true], &[Some(1), Some(1)]);
    assert_eq!(claim, Err(Refusal::LeavesSet(0)));
}

#[test]
fn c11_false_claims_on_c7_and_c5() {
    let claim = c7().check(&[true, true], &[false, false], &[Some(0), None]);
    assert_eq!(claim, Err(Refusal::BadEntry(0)));
    let claim = c5().check(&[false, true], &[false, false], &[None, Some(1)]);
    assert_eq!(claim, Err(Refusal::NotOneWinner(0)));
}

#[test]
fn compaction_keeps_parity_and_winners() {
    let wide = game(&[(Even, 3, &[0]), (Odd, 7, &[0, 1]), (Even, 4, &[2, 1])]);
    assert_eq!(wide.compact(), Ok(vec![1, 3, 2]));
    let small = game(&[(Even, 1, &[0]), (Odd, 3, &[0, 1]), (Even, 2, &[2, 1])]);
    let (wide, small) = (wide.solve_zielonka(ANY).unwrap(), small.solve_zielonka(ANY).unwrap());
    assert_eq!(wide.even, small.even);
}

#[test]
fn compaction_gives_equal_parity_one_number() {
    let two = |low, high| game(&[(Even, low, &[0, 1]), (Odd, high, &[0])]);
    let three = |low, middle, high| game(&[(Even, low, &[0, 1]), (Odd, middle, &[0, 2]), (Even, high, &[1, 2])]);
    assert_eq!(two(2, 6).compact(), Ok(vec![0, 0]));
    assert_eq!(three(3, 7, 8).compact(), Ok(vec![1, 1, 2]));
    for (wide, small) in [(two(2, 6), two(0, 0)), (three(3, 7, 8), three(1, 1, 2))] {
        assert_eq!(small.compact(), wide.compact());
        for solve in [Game::solve_zielonka, Game::solve_priority_promotion] {
            let (wide, small) = (solve(&wide, ANY).unwrap(), solve(&small, ANY).unwrap());
            assert_eq!((wide.even, wide.odd), (small.even, small.odd));
        }
    }
}

#[test]
fn sets_of_two_words() {
    // 100 vertices of Odd's, each with a loop; every third has priority 2, the others 1
    let itself: Vec<u16> = (0..100).collect();
    let thirds: Vec<bool> = (0..100).map(|v| v % 3 == 0).collect();
    let others: Vec<bool> = thirds.iter().map(|third| !third).collect();
    let loops: Vec<(Player, u16, &[u16])> =
        (0..100).map(|v| (Odd, if thirds[v] { 2 } else { 1 }, &itself[v..v + 1])).collect();
    let loops = game(&loops);
    for solved in [loops.solve_zielonka(ANY).unwrap(), loops.solve_priority_promotion(ANY).unwrap()] {
        assert_eq!((&solved.even, &solved.odd), (&thirds, &others));
        assert_eq!(loops.check(&solved.even, &solved.odd, &solved.strategy), Ok(()));
    }
    assert_eq!(loops.solve_solitaire_game(), Ok(others));

    // a ring of 100 vertices of Odd's, drawn to vertex 70
    let next: Vec<u16> = (0..100).map(|v| (v + 1) % 100).collect();
    let ring: Vec<(Player, u16, &[u16])> = (0..100).map(|v| (Odd, 1, &next[v..v + 1])).collect();
    let only: Vec<bool> = (0..100).map(|v| v == 70).collect();
    let attracted = game(&ring).attractor(Odd, &[true; 100], &only).unwrap();
    assert_eq!((attracted.set, attracted.looks), (vec![true; 100], 100));
    assert_eq!(attracted.strategy[69..72], [Some(70), None, Some(72)]);
    assert_eq!(attracted.distances[69..72], [Some(1), Some(0), Some(99)]);
    let attracted = game(&ring).attractor(Even, &thirds, &[false; 100]).unwrap();
    assert_eq!((attracted.set, attracted.looks), (vec![false; 100], 0));
}

/// The largest chain, 2,048 pairs: E2 to the pair's other, E1 to itself and to the next pair. It nests 2,049 calls.
fn chain() -> Game {
    let targets: Vec<Vec<u16>> =
        (0..4096).map(|v| if v % 2 == 1 && v < 4095 { vec![v, v + 1] } else { vec![v | 1] }).collect();
    let vertices: Vec<(Player, u16, &[u16])> =
        targets.iter().enumerate().map(|(v, row)| (Even, if v % 2 == 0 { 2 } else { 1 }, &row[..])).collect();
    game(&vertices)
}

#[test]
fn the_largest_chain_in_two_threads_of_2_mib() {
    let chain = std::sync::Arc::new(chain());
    let solve = || {
        let chain = chain.clone();
        let thread = std::thread::Builder::new().stack_size(2 << 20);
        thread.spawn(move || chain.solve_zielonka(ANY).unwrap()).unwrap()
    };
    let (one, other) = (solve(), solve());
    let (one, other) = (one.join().unwrap(), other.join().unwrap());
    assert_eq!(one, other);
    expect(&chain, one, &[Odd; 4096], 6145);
}

#[test]
fn players() {
    assert_eq!((Even as u8, Odd as u8), (0, 1));
    assert_eq!((Even.opponent(), Odd.opponent()), (Odd, Even));
}
