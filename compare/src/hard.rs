//! Small games that a solver finds hard, found by climbing: a vertex is changed at random, and the change stays where the
//! oracle then needs no fewer calls or rounds.

use crate::game::Game;
use crate::generate::{of_shape, Numbers, Shape};
use crate::oracle::{self, Cap, Outcome};

/// Whose count is climbed.
#[derive(Clone, Copy, Debug, PartialEq, Eq)]
pub enum Solver {
    Zielonka,
    Promotion,
}

impl Solver {
    pub fn name(self) -> &'static str {
        match self {
            Solver::Zielonka => "Zielonka",
            Solver::Promotion => "promotion",
        }
    }

    /// The oracle's answer, with its count.
    pub fn oracle(self, game: &Game, cap: Cap) -> Outcome<oracle::Solved> {
        match self {
            Solver::Zielonka => oracle::zielonka(game, cap),
            Solver::Promotion => oracle::priority_promotion(game, cap),
        }
    }
}

/// The games of a climb, each at least as hard as the one before; the last one is the hardest. It ends after so many steps,
/// or once the count is `enough`.
pub fn climb(solver: Solver, n: usize, steps: usize, enough: u64, seed: u64) -> impl Iterator<Item = Game> {
    let mut numbers = Numbers::new(seed);
    let shape = Shape { n, most_edges: 2, priorities: n, reach: n.min(4), repeats: usize::MAX, owner: 2 };
    let mut game = of_shape(shape, &mut numbers);
    let mut best = count(&game, solver);
    let mut left = steps;
    std::iter::from_fn(move || {
        while left > 0 && best < enough {
            left -= 1;
            let changed = change(&game, &mut numbers);
            let cost = count(&changed, solver);
            if cost >= best {
                (game, best) = (changed, cost);
                return Some(game.clone());
            }
        }
        None
    })
}

/// The same game with one vertex made anew: its owner, its priority and one or two edges.
fn change(game: &Game, numbers: &mut Numbers) -> Game {
    let at = numbers.below(game.n());
    let mut changed = Game::empty();
    for v in 0..game.n() {
        if v != at {
            changed.push(game.owners[v], game.priorities[v], game.edges(v));
            continue;
        }
        let targets = [numbers.below(game.n()) as u16, numbers.below(game.n()) as u16];
        let kept = game.edges(v)[0];
        let edges: &[u16] = match numbers.below(3) {
            0 => &targets[..1],
            1 => &targets,
            _ => &[kept, targets[0]],
        };
        changed.push(numbers.below(2) as u8, numbers.below(game.n()) as u16, edges);
    }
    changed
}

/// Calls or rounds; 0 where the cap stopped them.
fn count(game: &Game, solver: Solver) -> u64 {
    let cap = Cap { messages: 100_000, ..Cap::default() };
    match solver.oracle(game, cap) {
        Outcome::Answer(solved) => solved.count,
        _ => 0,
    }
}
