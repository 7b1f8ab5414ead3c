//! Layered games that the recursion on sets finds hard. All layers have the same few vertices, but owners change sides and
//! priorities rise by one from a layer to the next; edges lead into the layer itself or one beside it. What is climbed, as in
//! `compare::hard`, is the pattern of a layer: all copies of a vertex change together.

use compare::game::Game;
use compare::generate::Numbers;
use compare::hard::Solver;
use compare::oracle::{Cap, Outcome};

/// Steps of a climb at most.
const STEPS: usize = 3_000;

/// A vertex of the pattern: what its copy in the first layer has, and where its edges lead.
#[derive(Clone)]
struct Vertex {
    owner: usize,
    priority: u16,
    edges: Vec<Edge>,
}

/// To the layer before (0), the same (1) or the next one (2), and to which vertex of its pattern.
type Edge = (usize, usize);

/// The first game of a climb that takes Zielonka's recursion `enough` calls.
pub fn climb(layers: usize, wide: usize, enough: u64, seed: u64) -> Game {
    let mut numbers = Numbers::new(seed);
    let mut pattern: Vec<Vertex> = (0..wide).map(|_| vertex(wide, &mut numbers)).collect();
    let mut best = calls(&unrolled(&pattern, layers));
    for _ in 0..STEPS {
        if best >= enough {
            break;
        }
        let mut changed = pattern.clone();
        changed[numbers.below(wide)] = vertex(wide, &mut numbers);
        let cost = calls(&unrolled(&changed, layers));
        if cost >= best {
            (pattern, best) = (changed, cost);
        }
    }
    assert!(best >= enough, "the climb ends below {enough} calls");
    unrolled(&pattern, layers)
}

fn vertex(wide: usize, numbers: &mut Numbers) -> Vertex {
    let edges = (0..numbers.between(1, 3)).map(|_| (numbers.below(3), numbers.below(wide))).collect();
    Vertex { owner: numbers.below(2), priority: numbers.below(2 * wide) as u16, edges }
}

/// An edge that would leave the first or the last layer stays in it.
fn unrolled(pattern: &[Vertex], layers: usize) -> Game {
    let mut game = Game::empty();
    for layer in 0..layers {
        for vertex in pattern {
            let end = |edge: &Edge| ((layer + edge.0).clamp(1, layers) - 1) * pattern.len() + edge.1;
            let targets: Vec<u16> = vertex.edges.iter().map(|edge| end(edge) as u16).collect();
            game.push(((vertex.owner + layer) % 2) as u8, vertex.priority + layer as u16, &targets);
        }
    }
    game
}

/// Calls; 0 where the cap stopped them.
fn calls(game: &Game) -> u64 {
    let cap = Cap { messages: 100_000, ..Cap::default() };
    match Solver::Zielonka.oracle(game, cap) {
        Outcome::Answer(solved) => solved.count,
        _ => 0,
    }
}
