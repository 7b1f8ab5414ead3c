//! STAND-IN for merc's `Strategy` and `Strat`. What `union` keeps and what `extend_arbitrary` takes is our choice.

use std::collections::HashMap;

use crate::PG;
use crate::Player;
use crate::Set;
use crate::VertexIndex;

/// What the solvers do with a strategy; `()` is the run without one.
pub trait Strat {
    fn new() -> Self;
    fn set(&mut self, vertex: VertexIndex, target: VertexIndex);
    fn get(&self, vertex: VertexIndex) -> Option<VertexIndex>;
    fn remove(&mut self, vertex: VertexIndex);

    /// Both strategies in one; where both have an entry, `self`'s stays.
    fn union(self, other: Self) -> Self;

    /// Each vertex of `from` that `player` owns and that has no entry takes its first edge inside `within`.
    fn extend_arbitrary<G: PG>(self, game: &G, from: &Set, within: &Set, player: Player) -> Self;
}

/// An edge for each vertex that has one chosen.
#[derive(Clone, Debug, Default)]
pub struct Strategy {
    chosen: HashMap<VertexIndex, VertexIndex>,
}

impl Strategy {
    pub fn target(&self, vertex: VertexIndex) -> Option<VertexIndex> {
        self.chosen.get(&vertex).copied()
    }
}

impl Strat for Strategy {
    fn new() -> Strategy {
        Strategy::default()
    }

    fn set(&mut self, vertex: VertexIndex, target: VertexIndex) {
        self.chosen.insert(vertex, target);
    }

    fn get(&self, vertex: VertexIndex) -> Option<VertexIndex> {
        self.target(vertex)
    }

    fn remove(&mut self, vertex: VertexIndex) {
        self.chosen.remove(&vertex);
    }

    fn union(mut self, other: Strategy) -> Strategy {
        for (vertex, target) in other.chosen {
            self.chosen.entry(vertex).or_insert(target);
        }
        self
    }

    fn extend_arbitrary<G: PG>(mut self, game: &G, from: &Set, within: &Set, player: Player) -> Strategy {
        for vertex in from.iter_ones().map(VertexIndex::new) {
            if game.owner(vertex) != player || self.chosen.contains_key(&vertex) {
                continue;
            }
            if let Some(edge) = game.outgoing_edges(vertex).find(|edge| within[*edge.to()]) {
                self.chosen.insert(vertex, edge.to());
            }
        }
        self
    }
}

impl Strat for () {
    fn new() {}

    fn set(&mut self, _vertex: VertexIndex, _target: VertexIndex) {}

    fn get(&self, _vertex: VertexIndex) -> Option<VertexIndex> {
        None
    }

    fn remove(&mut self, _vertex: VertexIndex) {}

    fn union(self, _other: ()) {}

    fn extend_arbitrary<G: PG>(self, _game: &G, _from: &Set, _within: &Set, _player: Player) {}
}
