//! The games that are timed.

use std::sync::OnceLock;

use compare::game::Game;
use compare::generate::{chain, ladder, of_shape, Numbers, Shape};
use compare::hard::{climb, Solver};

use crate::layered;

/// A family with games of every size: its name, and its k-th game of n vertices.
pub struct Family {
    pub name: &'static str,
    pub game: fn(usize, u64) -> Game,
}

/// The families whose cost is drawn against n.
pub const FAMILIES: [Family; 9] = [
    Family { name: "random dense", game: dense },
    Family { name: "random sparse", game: sparse },
    Family { name: "few priorities", game: few },
    Family { name: "ladder", game: |n, _| ladder(n) },
    Family { name: "chain", game: |n, _| chain(n) },
    Family { name: "near neighbours", game: near },
    Family { name: "random", game: random },
    Family { name: "hard for Zielonka, padded", game: |n, _| padded(hard(Solver::Zielonka), n) },
    Family { name: "hard for promotion, padded", game: |n, _| padded(hard(Solver::Promotion), n) },
];

impl Family {
    /// Different games of n vertices, 4,096 vertices in all; a family with one game for each n has one.
    pub fn games(&self, n: usize) -> Vec<Game> {
        first(self.game, n, 4_096 / n as u64)
    }
}

/// The games of a row of the tables, all of one size.
pub struct Timed {
    pub name: &'static str,
    pub games: Vec<Game>,
}

/// How many games a row of a random family has: what one costs, beside the Rust, hangs on its seed.
const SEEDS: u64 = 12;

/// The rows of the tables: those of full size first, then the smaller ones.
pub fn timed() -> Vec<Timed> {
    let row = |name, game, n| Timed { name, games: first(game, n, SEEDS) };
    let one = |name, game| Timed { name, games: vec![game] };
    let full = FAMILIES.iter().filter(|family| family.name != "random");
    let mut rows: Vec<Timed> = full.map(|family| row(family.name, family.game, 4_096)).collect();
    rows.extend([
        row("near neighbours", near, 1_024),
        row("random", random, 200),
        row("random", random, 40),
        one("hard 44", hard_44()),
        one("hard 39", hard_39()),
        one("hard for Zielonka", hard(Solver::Zielonka).clone()),
        one("hard for promotion", hard(Solver::Promotion).clone()),
    ]);
    rows
}

/// The first games of n vertices; one where the family has no more.
fn first(game: fn(usize, u64) -> Game, n: usize, many: u64) -> Vec<Game> {
    let mut games: Vec<Game> = (0..many).map(|k| game(n, k)).collect();
    games.dedup();
    games
}

fn shaped(n: usize, most_edges: usize, priorities: usize, reach: usize, seed: u64) -> Game {
    let shape = Shape { n, most_edges, priorities, reach, repeats: usize::MAX, owner: 2 };
    of_shape(shape, &mut Numbers::new(seed))
}

/// Four edges a vertex, anywhere.
pub fn dense(n: usize, k: u64) -> Game {
    let mut numbers = Numbers::new(n as u64 + k);
    let mut game = Game::empty();
    for _ in 0..n {
        let targets: Vec<u16> = (0..4).map(|_| numbers.below(n) as u16).collect();
        game.push(numbers.below(2) as u8, numbers.below(256) as u16, &targets);
    }
    game
}

/// One or two edges a vertex, anywhere.
pub fn sparse(n: usize, k: u64) -> Game {
    shaped(n, 2, 256, n, n as u64 + k)
}

/// Of each two vertices one has one edge and one has two, anywhere: 3n/2 edges; four priorities. With n itself as the seed a
/// single attractor would take all 4,096 vertices.
fn few(n: usize, k: u64) -> Game {
    let mut numbers = Numbers::new(n as u64 + 1 + k);
    let mut game = Game::empty();
    let mut before = 1;
    for v in 0..n {
        before = if v % 2 == 0 { numbers.between(1, 2) } else { 3 - before };
        let targets: Vec<u16> = (0..before).map(|_| numbers.below(n) as u16).collect();
        game.push(numbers.below(2) as u8, numbers.below(4) as u16, &targets);
    }
    game
}

/// One or two edges a vertex, at most three places away, eight priorities.
fn near(n: usize, k: u64) -> Game {
    shaped(n, 2, 8, 3, n as u64 + k)
}

/// One to four edges a vertex, anywhere, 64 priorities.
pub fn random(n: usize, k: u64) -> Game {
    shaped(n, 4, 64, n, n as u64 + k)
}

/// One or two edges a vertex, anywhere, 64 priorities, 100 vertices.
pub fn hundred() -> Game {
    shaped(100, 2, 64, 100, 100)
}

/// 40 vertices, made hard for the solver by small changes.
fn hard(solver: Solver) -> &'static Game {
    static GAMES: [OnceLock<Game>; 2] = [OnceLock::new(), OnceLock::new()];
    GAMES[solver as usize].get_or_init(|| climb(solver, 40, 3_000, 10_000, 7).last().expect("the climb has steps"))
}

/// 11 layers of 4 vertices, climbed to 150 calls. The seed, as that of hard 39, is one of twelve tried: its game is among the
/// nearest, in the Rust's times by both solvers, to the one that the C program's share was measured on.
fn hard_44() -> Game {
    layered::climb(11, 4, 150, 7)
}

/// 13 layers of 3 vertices, climbed to 3,000 calls.
fn hard_39() -> Game {
    layered::climb(13, 3, 3_000, 2)
}

/// The game with vertices added up to n: each leads to itself, with the highest priority, so that the recursion drops them at
/// once and only the size of the tables stays.
fn padded(game: &Game, n: usize) -> Game {
    let mut padded = game.clone();
    for v in game.n()..n {
        padded.push(0, 255, &[v as u16]);
    }
    padded
}
