//! Mending an incomplete export.
#![forbid(unsafe_code)]

use reckonbough::Player::{Even, Odd};
use reckonbough::{doors, Game, Mended, Refusal, Tables, MAX_EDGES, MAX_VERTICES};

/// Even's vertex keeps its second edge, Odd's keeps none, Even's second has none.
const HALF: Tables<'static> =
    Tables { owners: &[0, 1, 0], priorities: &[6, 3, 2], offsets: &[0, 3, 4, 4], targets: &[3, 1, 65_535, 4] };

#[test]
fn what_is_missing_is_dropped_and_a_dead_end_is_lost() {
    let Mended { game, dropped, altered } = Game::mend(HALF).unwrap();
    assert_eq!(game, Game::new(&[(Even, 6, &[1]), (Odd, 0, &[1]), (Even, 1, &[2])]).unwrap());
    assert_eq!(dropped, [0, 2, 3]);
    assert_eq!(altered, [(1, 3), (2, 2)]);
    let solved = game.solve_zielonka(u64::MAX).unwrap();
    assert_eq!([0, 1, 2].map(|v| solved.winner(v)), [Even, Even, Odd]);
    // mending what was mended changes nothing
    assert_eq!(Game::mend(game.tables()).unwrap(), Mended { game, dropped: vec![], altered: vec![] });
}

#[test]
fn outputs_that_are_longer_keep_their_rest() {
    let (mut priorities, mut offsets, mut targets, mut list) = ([7; 4], [7; 5], [7; 4], [7; 8]);
    let answer = doors::mend(HALF, &mut priorities, &mut offsets, &mut targets, &mut list);
    assert_eq!((answer.number, answer.place, answer.count), (0, 0, 7));
    assert_eq!(priorities, [6, 0, 1, 7]);
    assert_eq!(offsets, [0, 1, 2, 3, 7]);
    assert_eq!(targets, [1, 1, 2, 7]);
    assert_eq!(list, [0, 2, 3, 1, 3, 2, 2, 7]);
}

#[test]
fn one_entry_less_is_refused_and_nothing_is_written() {
    for (p, o, t, l) in [(2, 4, 3, 7), (3, 3, 3, 7), (3, 4, 2, 7), (3, 4, 3, 6)] {
        let (mut priorities, mut offsets) = (vec![7; p], vec![7; o]);
        let (mut targets, mut list) = (vec![7; t], vec![7; l]);
        let answer = doors::mend(HALF, &mut priorities, &mut offsets, &mut targets, &mut list);
        assert_eq!((answer.number, answer.place, answer.count), (35, 0, 0));
        let lent = [priorities, offsets, targets, list];
        assert!(lent.iter().flatten().all(|entry| *entry == 7));
    }
}

#[test]
fn tables_are_refused_by_1_to_6() {
    let mend = |owners: &[u8], priorities: &[u16], offsets: &[u16], targets: &[u16]| {
        Game::mend(Tables { owners, priorities, offsets, targets }).unwrap_err()
    };
    let n = MAX_VERTICES + 1;
    assert_eq!(mend(&vec![0; n], &vec![0; n], &vec![0; n + 1], &[]), Refusal::TooManyVertices);
    assert_eq!(mend(&[0], &[0], &[0], &[]), Refusal::TableLengths);
    assert_eq!(mend(&[0], &[0], &[0, 16_385], &[0; MAX_EDGES + 1]), Refusal::TooManyEdges);
    assert_eq!(mend(&[0, 2], &[0, 0], &[0, 0, 0], &[]), Refusal::BadOwner(1));
    assert_eq!(mend(&[0, 1], &[256, 0], &[0, 0, 0], &[]), Refusal::BadPriority(0));
    assert_eq!(mend(&[0, 1], &[0, 0], &[0, 1, 0], &[]), Refusal::BadOffset(1));
    // the self loop of a dead end is one edge too many
    assert_eq!(mend(&[0, 1], &[0, 0], &[0, 16_384, 16_384], &[0; MAX_EDGES]), Refusal::TooManyEdges);
}

#[test]
fn no_vertices_and_the_most() {
    let none = Game::mend(Tables { owners: &[], priorities: &[], offsets: &[0], targets: &[] }).unwrap();
    assert_eq!((none.game.vertices(), none.dropped.len(), none.altered.len()), (0, 0, 0));
    // all edges missing: the longest list there is
    let (owners, priorities) = (vec![1; MAX_VERTICES], vec![255; MAX_VERTICES]);
    let offsets: Vec<u16> = (0..=MAX_VERTICES as u16).map(|v| 4 * v).collect();
    let targets = vec![MAX_VERTICES as u16; MAX_EDGES];
    let tables = Tables { owners: &owners, priorities: &priorities, offsets: &offsets, targets: &targets };
    let mended = Game::mend(tables).unwrap();
    assert_eq!(mended.dropped, (0..MAX_EDGES).collect::<Vec<_>>());
    assert_eq!(mended.altered, (0..MAX_VERTICES).map(|v| (v, 255)).collect::<Vec<_>>());
    assert!((0..MAX_VERTICES).all(|v| mended.game.priority(v) == 0 && mended.game.successors(v) == [v as u16]));
}
