//! Broken tables and wrong sizes: the first refusal that applies, and nothing written.

use crate::compare::{same, Want};
use crate::game::{worked, Game};
use crate::generate::Numbers;
use crate::port::{self, Lent, Lists};
use crate::reference::tables::{first_refusal, set_words};
use crate::reference::Answer;

/// Damaged copies of the tables, then wrong sizes of what is lent.
pub fn compare(game: &Game, numbers: &mut Numbers) -> Result<(), String> {
    for _ in 0..if game.n() > 0 { 4 } else { 0 } {
        let damaged = damage(game, numbers);
        if let Some(want) = first_refusal(&fronts(&damaged)) {
            every_door(&damaged, want, &Lent::junk(&damaged))?;
        }
        if let Some(want) = first_refusal(&damaged) {
            same("port: check_tables of damaged tables", &want, &port::check_tables(&damaged))?;
        }
    }
    wrong_kept(game, numbers)?;
    wrong_sizes(game)
}

/// The entries that count in a record of so many owners and targets.
fn fronts(game: &Game) -> Game {
    let mut front = game.clone();
    front.priorities.truncate(game.n());
    front.offsets.truncate(game.n() + 1);
    front
}

/// 47 for a kept number that is not the one of a fresh count, and for one too few.
fn wrong_kept(game: &Game, numbers: &mut Numbers) -> Result<(), String> {
    let mut lent = Lent::junk(game);
    lent.kept[numbers.below(258)] ^= 1 << numbers.below(64);
    every_door(game, Answer::no(47, 0), &lent)?;
    lent.kept = port::fresh(&game.priorities);
    lent.kept.pop();
    every_door(game, Answer::no(47, 0), &lent)
}

pub(super) fn damage(game: &Game, numbers: &mut Numbers) -> Game {
    let mut damaged = game.clone();
    for _ in 0..numbers.between(1, 2) {
        let v = numbers.below(game.n());
        match numbers.below(9) {
            0 => damaged.owners.iter_mut().skip(v).take(1).for_each(|owner| *owner = 2 + numbers.below(254) as u8),
            1 => damaged.priorities.iter_mut().skip(v).take(1).for_each(|p| *p = 256 + numbers.below(65_280) as u16),
            2 => damaged.offsets[0] = 1,
            3 => damaged.offsets.iter_mut().skip(v).take(1).for_each(|offset| *offset = numbers.below(65_536) as u16),
            4 => damaged.targets.iter_mut().skip(v).take(1).for_each(|w| *w = (game.n() + numbers.below(3)) as u16),
            5 => damaged.targets.truncate(game.m() - 1),
            6 => damaged.priorities.truncate(game.n() - 1),
            7 => damaged.offsets.push(game.m() as u16),
            _ => {
                damaged.owners.push(0);
                damaged.priorities.push(0);
                damaged.offsets.push(game.m() as u16);
            }
        }
    }
    damaged
}

/// Sets, strategy and distances one too short or too long, a work area too short. A door that does not take the slice isn't asked.
fn wrong_sizes(game: &Game) -> Result<(), String> {
    let set: &[Call] = &[zielonka, promotion, attractor, solitaire, check];
    let second_set: &[Call] = &[zielonka, promotion, check];
    let entries: &[Call] = &[zielonka, promotion, attractor, check, compact];
    let with = |change: fn(&mut Lent)| {
        let mut lent = Lent::junk(game);
        change(&mut lent);
        lent
    };
    refuse(set, game, Answer::no(9, 0), &with(|lent| lent.even.push(0)))?;
    refuse(second_set, game, Answer::no(9, 0), &with(|lent| lent.odd.push(0)))?;
    refuse(entries, game, Answer::no(9, 0), &with(|lent| lent.strategy.push(0)))?;
    refuse(&[attractor], game, Answer::no(9, 0), &with(|lent| lent.distances.push(0)))?;
    refuse(&[compact], game, Answer::no(9, 0), &with(|lent| lent.new_kept.push(0)))?;
    let longer: &[Call] = &[|game, lent| attractor_of(game, [1, 0], lent), |game, lent| attractor_of(game, [0, 1], lent)];
    refuse(longer, game, Answer::no(9, 0), &Lent::junk(game))?;
    if game.n() > 0 {
        let shorter: &[Call] =
            &[|game, lent| attractor_of(game, [-1, 0], lent), |game, lent| attractor_of(game, [0, -1], lent)];
        refuse(shorter, game, Answer::no(9, 0), &Lent::junk(game))?;
        refuse(set, game, Answer::no(9, 0), &with(|lent| lent.even.truncate(lent.even.len() - 1)))?;
        refuse(second_set, game, Answer::no(9, 0), &with(|lent| lent.odd.truncate(lent.odd.len() - 1)))?;
        refuse(entries, game, Answer::no(9, 0), &with(|lent| lent.strategy.truncate(lent.strategy.len() - 1)))?;
        refuse(&[attractor], game, Answer::no(9, 0), &with(|lent| lent.distances.truncate(lent.distances.len() - 1)))?;
    }
    let short = with(|lent| lent.work.truncate(lent.work.len() - 4));
    refuse(set, game, Answer::no(10, 0), &short)
}

type Call = fn(&Game, &mut Lent) -> Answer;

fn zielonka(game: &Game, lent: &mut Lent) -> Answer {
    port::zielonka(game, u64::MAX, lent)
}

fn promotion(game: &Game, lent: &mut Lent) -> Answer {
    port::priority_promotion(game, u64::MAX, lent)
}

fn attractor(game: &Game, lent: &mut Lent) -> Answer {
    attractor_of(game, [0, 0], lent)
}

/// V and the target empty, each with so many words more than a set has.
fn attractor_of(game: &Game, more: [isize; 2], lent: &mut Lent) -> Answer {
    let [within, target] = more.map(|more| vec![0; set_words(game.n()).saturating_add_signed(more)]);
    port::attractor(game, 0, &within, &target, lent)
}

fn solitaire(game: &Game, lent: &mut Lent) -> Answer {
    port::solitaire(game, lent)
}

fn check(game: &Game, lent: &mut Lent) -> Answer {
    port::check(game, lent)
}

fn compact(game: &Game, lent: &mut Lent) -> Answer {
    port::compact(game, lent)
}

fn write(game: &Game, lent: &mut Lent) -> Answer {
    port::write(game, &lent.kept, &mut [0; 8])
}

fn opinion(game: &Game, lent: &mut Lent) -> Answer {
    port::quasi_polynomial(game, lent, &mut [])
}

fn show_loop(game: &Game, lent: &mut Lent) -> Answer {
    let mut lists = Lists { kept: lent.kept.clone(), ..Lists::junk_lists(game) };
    port::show_loop(game, 0, &mut lists)
}

fn every_door(game: &Game, want: Answer, lent: &Lent) -> Result<(), String> {
    refuse(&[zielonka, promotion, opinion, attractor, solitaire, show_loop, check, compact, write], game, want, lent)
}

/// Each door gives the refusal and writes nothing.
fn refuse(doors: &[Call], game: &Game, want: Answer, lent: &Lent) -> Result<(), String> {
    for (at, door) in doors.iter().enumerate() {
        let mut after = lent.clone();
        same(&format!("port: refusal of door {at} on {game:?}"), &want, &door(game, &mut after))?;
        if &after != lent {
            return Err(format!("port: door {at} wrote something although it refused with {want:?}"));
        }
    }
    Ok(())
}

/// A bit at n or above in V or target, or a target bit outside V: 12 at the lowest of them.
pub fn stray_bit(game: &Game, player: u8, within: &[u64], target: &[u64], numbers: &mut Numbers) -> Result<(), String> {
    if game.n() == 0 {
        return Ok(());
    }
    let (mut within, mut target) = (within.to_vec(), target.to_vec());
    for _ in 0..numbers.between(1, 2) {
        let (set, bit) = (numbers.below(2), numbers.below(64 * within.len()));
        [&mut within, &mut target][set][bit / 64] ^= 1 << (bit % 64);
    }
    let has = |set: &[u64], bit: usize| set[bit / 64] >> (bit % 64) & 1 == 1;
    let stray = |bit: &usize| {
        let (inside, aimed) = (has(&within, *bit), has(&target, *bit));
        if *bit < game.n() { aimed && !inside } else { aimed || inside }
    };
    let Some(place) = (0..64 * within.len()).find(stray) else { return Ok(()) };
    let mut lent = Lent::junk(game);
    let got = port::attractor(game, player, &within, &target, &mut lent);
    same("port: attractor, stray bit", &Answer::no(12, place), &got)?;
    same("port: attractor, nothing written", &Lent::junk(game), &lent)
}

/// What document 01 wants run and compared, and C1.
pub fn boundaries() -> Result<(), String> {
    let loops = |n: u16, priority: u16| {
        let mut game = Game::empty();
        (0..n).for_each(|v| game.push(0, priority, &[v]));
        game
    };
    same("port: 4,096 vertices", &0, &zielonka(&loops(4_096, 0), &mut Lent::junk(&loops(4_096, 0))).number)?;
    every_door(&loops(4_097, 0), Answer::no(1, 0), &Lent::junk(&loops(4_097, 0)))?;
    same("port: priority 255", &0, &zielonka(&loops(1, 255), &mut Lent::junk(&loops(1, 255))).number)?;
    every_door(&loops(1, 256), Answer::no(5, 0), &Lent::junk(&loops(1, 256)))?;

    let falling = Game { owners: vec![0, 0], priorities: vec![0, 0], offsets: vec![0, 2, 1], targets: vec![0] };
    every_door(&falling, Answer::no(6, 1), &Lent::junk(&falling))?;

    let mut many = Game::empty();
    many.push(0, 0, &vec![0; 16_385]);
    every_door(&many, Answer::no(3, 0), &Lent::junk(&many))?;
    many = Game::new(&[(0, 0, &vec![0; 16_384])]);
    same("port: 16,384 edges", &0, &zielonka(&many, &mut Lent::junk(&many)).number)?;

    let c1 = &worked()[0].1;
    super::compare(c1, &Want::of_nothing()).map(|_| ())
}
