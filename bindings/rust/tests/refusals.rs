//! Every refusal once, its place, and what it leaves of the lent slices.
#![forbid(unsafe_code)]

use reckonbough::doors::{self, set_words, work_words};
use reckonbough::Player::{Even, Odd};
use reckonbough::{Answer, Game, Record, Refusal, Tables, KEPT, MAX_EDGES, MAX_VERTICES, NONE};

fn refused(owners: &[u8], priorities: &[u16], offsets: &[u16], targets: &[u16]) -> Refusal {
    Game::from_tables(owners.to_vec(), priorities.to_vec(), offsets.to_vec(), targets.to_vec()).unwrap_err()
}

/// n vertices with a self loop each.
fn loops(n: usize) -> (Vec<u8>, Vec<u16>, Vec<u16>, Vec<u16>) {
    (vec![0; n], vec![0; n], (0..=n as u16).collect(), (0..n as u16).collect())
}

#[test]
fn tables_are_refused_with_their_place() {
    assert_eq!(refused(&[0, 0], &[0], &[0, 1, 2], &[0, 0]), Refusal::TableLengths);
    assert_eq!(refused(&[0, 0], &[0, 0], &[0, 1], &[0, 0]), Refusal::TableLengths);
    assert_eq!(refused(&[], &[], &[], &[]), Refusal::TableLengths);
    assert_eq!(refused(&[0, 2], &[0, 0], &[0, 1, 2], &[0, 0]), Refusal::BadOwner(1));
    assert_eq!(refused(&[0, 0], &[0, 256], &[0, 1, 2], &[0, 0]), Refusal::BadPriority(1));
    assert_eq!(refused(&[0, 0], &[0, 0], &[1, 1, 2], &[0, 0]), Refusal::BadOffset(0));
    assert_eq!(refused(&[0, 0], &[0, 0], &[0, 2, 1], &[0, 0]), Refusal::BadOffset(1));
    assert_eq!(refused(&[0, 0], &[0, 0], &[0, 1, 1], &[0, 0]), Refusal::BadOffset(2));
    assert_eq!(refused(&[0, 0], &[0, 0], &[0, 1, 2], &[0, 2]), Refusal::BadTarget(1));
    assert_eq!(refused(&[0, 0], &[0, 0], &[0, 2, 2], &[0, 0]), Refusal::DeadEnd(1));
    // the first that applies
    assert_eq!(refused(&[2, 0], &[0, 256], &[1, 1, 2], &[0, 2]), Refusal::BadOwner(0));
}

#[test]
fn the_limits_answer_and_one_more_is_refused() {
    let (owners, priorities, offsets, targets) = loops(MAX_VERTICES);
    assert!(Game::from_tables(owners, priorities, offsets, targets).is_ok());
    let (owners, priorities, offsets, targets) = loops(MAX_VERTICES + 1);
    assert_eq!(refused(&owners, &priorities, &offsets, &targets), Refusal::TooManyVertices);

    assert!(Game::new(&[(Even, 255, &[0; MAX_EDGES])]).is_ok());
    assert_eq!(refused(&[0], &[0], &[0, 16_385], &[0; MAX_EDGES + 1]), Refusal::TooManyEdges);
    assert_eq!(Game::new(&[(Even, 256, &[0])]), Err(Refusal::BadPriority(0)));
    // more edges than an offset can say, and more vertices than a target can
    assert_eq!(Game::new(&[(Even, 0, &[0; 70_000])]), Err(Refusal::TooManyEdges));
    assert_eq!(Game::new(&vec![(Even, 0, &[0][..]); 70_000]), Err(Refusal::TooManyVertices));
}

#[test]
fn solitaire_refuses_two_owners() {
    let game = Game::new(&[(Even, 0, &[1]), (Odd, 0, &[0])]).unwrap();
    assert_eq!(game.solve_solitaire_game(), Err(Refusal::OwnersDiffer));
}

#[test]
fn wrong_lengths_and_stray_members() {
    let game = Game::new(&[(Even, 0, &[1]), (Odd, 0, &[0])]).unwrap();
    assert_eq!(game.check(&[true], &[false, true], &[None, None]), Err(Refusal::BadSize));
    assert_eq!(game.check(&[true, true], &[false, false], &[Some(1)]), Err(Refusal::BadSize));
    assert_eq!(game.attractor(Even, &[false, true], &[true, true]), Err(Refusal::StrayBit(0)));
    assert_eq!(game.attractor(Even, &[false, true], &[false; 3]), Err(Refusal::BadSize));
    // a choice that no entry can hold is refused, and not taken for none
    assert_eq!(game.check(&[true, true], &[false, false], &[Some(1), Some(65_535)]), Err(Refusal::BadEntry(1)));
    assert_eq!(game.check(&[true, true], &[false, false], &[Some(1), Some(1 << 20)]), Err(Refusal::BadEntry(1)));
}

#[test]
fn every_number_goes_both_ways() {
    for number in (1..=13).chain(21..=25).chain(30..=35).chain(41..=48) {
        let refusal = Answer { number, place: 0, count: 0 }.result().unwrap_err();
        assert_eq!(refusal.number_and_place(), (number, 0));
    }
    assert_eq!(Answer { number: 0, place: 0, count: 7 }.result(), Ok(7));
    let unknown = Answer { number: 99, place: 5, count: 0 }.result().unwrap_err();
    assert_eq!(unknown, Refusal::Unknown { number: 99, place: 5 });
    assert_eq!(unknown.number_and_place(), (99, 5));
}

#[test]
fn a_refusal_says_its_place_where_it_has_one() {
    let said = |number| Answer { number, place: 3, count: 0 }.result().unwrap_err().to_string();
    for number in [1, 2, 3, 9, 10, 11, 13, 35, 45, 47] {
        assert!(said(number).starts_with(&format!("{}: ", number)), "{}", said(number));
    }
    for (number, what) in [
        (4, "vertex"),
        (5, "vertex"),
        (6, "index"),
        (7, "edge"),
        (8, "vertex"),
        (12, "bit"),
        (44, "vertex"),
        (46, "vertex"),
        (21, "bit"),
        (22, "vertex"),
        (23, "vertex"),
        (24, "vertex"),
        (25, "vertex"),
        (99, "place"),
    ] {
        assert!(said(number).starts_with(&format!("{} at {} 3: ", number, what)), "{}", said(number));
    }
    assert_eq!(Refusal::BadOwner(1).to_string(), "4 at vertex 1: the owner is neither 0 nor 1");
    assert_eq!(Refusal::OverBudget.to_string(), "13: the budget is too small");
}

#[test]
fn a_result_without_a_strategy_gets_25_in_the_place_of_22() {
    let game = Game::new(&[(Even, 1, &[0]), (Even, 2, &[1])]).unwrap();
    let solved = game.solve_zielonka(u64::MAX).unwrap();
    assert_eq!(game.check(&solved.even, &solved.odd, &[None, None]), Err(Refusal::NoStrategy(1)));
    // an entry at a vertex that its owner loses, and none where one is needed
    assert_eq!(game.check(&solved.even, &solved.odd, &[Some(0), None]), Err(Refusal::BadEntry(0)));
    // 21 comes first
    assert_eq!(game.check(&solved.even, &[false, false], &[None, None]), Err(Refusal::NotOneWinner(0)));
    // where no owner wins its vertex nothing is missing
    let lost = Game::new(&[(Even, 1, &[0])]).unwrap();
    assert_eq!(lost.check(&[false], &[true], &[None]), Ok(()));
    assert_eq!(Game::new(&[]).unwrap().check(&[], &[], &[]), Ok(()));
}

/// C6, with junk in everything that is lent: two words of work area more than needed.
struct Lent {
    even: Vec<u64>,
    odd: Vec<u64>,
    strategy: Vec<u16>,
    work: Vec<u64>,
}

const C6_TABLES: Tables<'static> = Tables { owners: &[0, 1], priorities: &[2, 1], offsets: &[0, 1, 2], targets: &[1, 1] };
const C6: Record<'static> = Record { n: 2, m: 2, tables: C6_TABLES, kept: &C6_KEPT };
/// Priorities 1 and 2 once each: two different ones, 2 the highest.
const C6_KEPT: [u64; KEPT] = {
    let mut kept = [0; KEPT];
    kept[1] = 1;
    kept[2] = 1;
    kept[256] = 2;
    kept[257] = 2;
    kept
};
const JUNK: u64 = 0xfeed_feed_feed_feed;
const W: usize = 8 * (2 + 2) + 4 * 2 + 2 * 2 + 272;

impl Lent {
    fn junk() -> Lent {
        Lent { even: vec![JUNK], odd: vec![JUNK], strategy: vec![777; 2], work: vec![JUNK; W + 2] }
    }

    /// Sets and strategy are as they were.
    fn outputs_kept(&self) -> bool {
        self.even == [JUNK] && self.odd == [JUNK] && self.strategy == [777; 2]
    }

    /// The first W words are zero and those beyond as they were.
    fn work_zeroed(&self) -> bool {
        self.work[..W].iter().all(|word| *word == 0) && self.work[W..] == [JUNK; 2]
    }

    fn solve(&mut self, solver: Solver, budget: u64, words: usize) -> Answer {
        solver(C6, budget, &mut self.even, &mut self.odd, &mut self.strategy, &mut self.work[..words])
    }
}

type Solver = fn(Record<'_>, u64, &mut [u64], &mut [u64], &mut [u16], &mut [u64]) -> Answer;

#[test]
fn sizes_are_those_of_document_01() {
    assert_eq!([0, 1, 64, 65, 4_096].map(set_words), [0, 1, 1, 2, 64]);
    assert_eq!(work_words(2, 2), W);
    assert_eq!(work_words(0, 0), 272);
}

#[test]
fn a_word_too_few_gets_10_and_writes_nothing() {
    for solver in [doors::zielonka as Solver, doors::priority_promotion] {
        let mut lent = Lent::junk();
        assert_eq!(lent.solve(solver, u64::MAX, W - 1), Answer { number: 10, place: 0, count: 0 });
        assert!(lent.outputs_kept() && lent.work == [JUNK; W + 2]);
        // W words are enough
        assert_eq!(lent.solve(solver, u64::MAX, W).number, 0);
    }
    let ten = Answer { number: 10, place: 0, count: 0 };
    let solitaire = Record { tables: Tables { owners: &[0, 0], ..C6_TABLES }, ..C6 };
    assert_eq!(doors::solitaire(solitaire, &mut [0], &mut [0; W - 1]), ten);
    assert_eq!(doors::check(C6, &[0], &[3], &[NONE, 1], &mut [0; W - 1]), ten);
    assert_eq!(doors::attractor(C6, 0, &[3], &[1], &mut [0], &mut [0; 2], &mut [0; 2], &mut [0; W - 1]), ten);
}

#[test]
fn budget_3_on_c6_gets_13_and_4_answers() {
    let mut lent = Lent::junk();
    assert_eq!(lent.solve(doors::zielonka, 3, W + 2), Answer { number: 13, place: 0, count: 3 });
    assert!(lent.outputs_kept() && lent.work_zeroed());
    assert_eq!(lent.solve(doors::zielonka, 4, W + 2), Answer { number: 0, place: 0, count: 4 });
    assert!(lent.work_zeroed());
    assert_eq!((lent.even, lent.odd, lent.strategy), (vec![0], vec![3], vec![NONE, 1]));
}

#[test]
fn a_set_or_a_table_of_another_length_gets_9() {
    let nine = Answer { number: 9, place: 0, count: 0 };
    for solver in [doors::zielonka as Solver, doors::priority_promotion] {
        assert_eq!(solver(C6, 9, &mut [0; 2], &mut [0], &mut [0; 2], &mut [0; W]), nine);
        assert_eq!(solver(C6, 9, &mut [0], &mut [], &mut [0; 2], &mut [0; W]), nine);
        assert_eq!(solver(C6, 9, &mut [0], &mut [0], &mut [0; 3], &mut [0; W - 1]), nine);
    }
    assert_eq!(doors::compact(C6, &mut [0; 3], &mut [0; KEPT]), nine);
    assert_eq!(doors::compact(C6, &mut [0; 2], &mut [0; KEPT - 1]), nine);
    assert_eq!(doors::solitaire(C6, &mut [], &mut [0; W]), nine);
    assert_eq!(doors::check(C6, &[0], &[3; 2], &[NONE, 1], &mut [0; W]), nine);
    assert_eq!(doors::attractor(C6, 0, &[3], &[], &mut [0], &mut [0; 2], &mut [0; 2], &mut [0; W]), nine);
    assert_eq!(doors::attractor(C6, 0, &[3], &[1], &mut [0], &mut [0; 2], &mut [0; 3], &mut [0; W - 1]), nine);
}

#[test]
fn a_bit_at_n_or_above_gets_12_or_21() {
    let number = |number, place| Answer { number, place, count: 0 };
    assert_eq!(doors::attractor(C6, 0, &[0b111], &[0], &mut [0], &mut [0; 2], &mut [0; 2], &mut [0; W]), number(12, 2));
    assert_eq!(doors::check(C6, &[1 << 63], &[3], &[NONE, 1], &mut [0; W]), number(21, 63));
}

/// The number that each function on a record gives.
fn numbers(record: Record<'_>) -> Vec<u64> {
    let mut lent = Lent::junk();
    let (even, odd, strategy, work) = (&mut lent.even, &mut lent.odd, &mut lent.strategy, &mut lent.work);
    let (mut kept, mut distances, mut opinion) = ([0; KEPT], [0; 2], [JUNK; W + 2_064]);
    vec![
        doors::zielonka(record, 9, even, odd, strategy, work).number,
        doors::priority_promotion(record, 9, even, odd, strategy, work).number,
        doors::quasi_polynomial(record, even, odd, &mut opinion).number,
        doors::attractor(record, 0, &[3], &[1], even, strategy, &mut distances, work).number,
        doors::solitaire(record, even, work).number,
        doors::show_loop(record, 0, &mut [0; 4], &mut [0; 4], work).0.number,
        doors::check(record, &[0], &[3], &[NONE, 1], work).number,
        doors::compact(record, strategy, &mut kept).number,
        doors::write(record, &mut [0; 100]).number,
    ]
}

#[test]
fn kept_numbers_that_a_fresh_count_does_not_give_get_47_everywhere() {
    assert_eq!(numbers(C6), [0, 0, 0, 0, 11, 11, 0, 0, 0]);
    for wrong in [0, 1, 255, 256, 257] {
        let mut kept = C6_KEPT;
        kept[wrong] += 1;
        assert_eq!(numbers(Record { kept: &kept, ..C6 }), [47; 9]);
    }
    assert_eq!(numbers(Record { kept: &C6_KEPT[1..], ..C6 }), [47; 9]);
    // 1 to 8 come first
    assert_eq!(numbers(Record { tables: Tables { targets: &[1, 2], ..C6_TABLES }, kept: &[], ..C6 }), [7; 9]);
}

#[test]
fn only_the_first_entries_of_a_record_count() {
    let roomy = Tables { owners: &[0, 1, 7], priorities: &[2, 1, 300], offsets: &[0, 1, 2, 9, 9], targets: &[1, 1, 5] };
    assert_eq!(numbers(Record { tables: roomy, ..C6 }), numbers(C6));
    // n above the room of owners, priorities or offsets, m above that of targets
    for tables in [
        Tables { owners: &[0], ..C6_TABLES },
        Tables { priorities: &[2], ..C6_TABLES },
        Tables { offsets: &[0, 1], ..C6_TABLES },
    ] {
        assert_eq!(numbers(Record { tables, ..C6 }), [2; 9]);
    }
    assert_eq!(numbers(Record { tables: Tables { targets: &[1], ..C6_TABLES }, ..C6 }), [3; 9]);
    assert_eq!(numbers(Record { n: u64::MAX, ..C6 }), [1; 9]);
    assert_eq!(numbers(Record { m: u64::MAX, ..C6 }), [3; 9]);
}
