//! STAND-IN for merc's `Graph` and its routine for strongly connected parts.

use merc_utilities::MercIndex;

use crate::IndexedPartition;

/// A graph with numbered vertices.
pub trait Graph {
    type VertexIndex: MercIndex + Copy;
    type LabelIndex;

    fn num_of_vertices(&self) -> usize;

    fn iter_vertices(&self) -> impl Iterator<Item = Self::VertexIndex>;

    fn outgoing_edges(&self, vertex: Self::VertexIndex) -> impl Iterator<Item = (Self::LabelIndex, Self::VertexIndex)>;
}

/// The strongly connected parts of a graph, by Tarjan's algorithm without recursion. Only the vertices of
/// `iter_vertices` get a block, and only the edges that `filter` accepts count.
pub fn scc_decomposition_iterative<G, F>(graph: &G, filter: F) -> IndexedPartition
where
    G: Graph,
    F: Fn(G::VertexIndex, G::LabelIndex, G::VertexIndex) -> bool,
{
    let n = graph.num_of_vertices();
    let mut search = Search::new(n);
    for root in graph.iter_vertices() {
        if search.index[root.index()].is_none() {
            search.from_root(graph, &filter, root);
        }
    }
    IndexedPartition { block_of: search.block_of, blocks: search.blocks }
}

/// The state of Tarjan's search.
struct Search {
    index: Vec<Option<usize>>,
    low: Vec<usize>,
    open: Vec<usize>,
    block_of: Vec<Option<usize>>,
    blocks: usize,
    seen: usize,
}

impl Search {
    fn new(n: usize) -> Search {
        Search { index: vec![None; n], low: vec![0; n], open: Vec::new(), block_of: vec![None; n], blocks: 0, seen: 0 }
    }

    fn from_root<G, F>(&mut self, graph: &G, filter: &F, root: G::VertexIndex)
    where
        G: Graph,
        F: Fn(G::VertexIndex, G::LabelIndex, G::VertexIndex) -> bool,
    {
        let mut path = vec![self.enter(graph, filter, root)];
        while let Some((vertex, targets)) = path.last_mut() {
            let vertex = *vertex;
            match targets.pop() {
                Some(target) => match self.index[target.index()] {
                    None => {
                        let entered = self.enter(graph, filter, target);
                        path.push(entered);
                    }
                    Some(index) if self.block_of[target.index()].is_none() => self.lower(vertex.index(), index),
                    Some(_) => (),
                },
                None => {
                    self.leave(vertex.index());
                    path.pop();
                    if let Some((above, _)) = path.last() {
                        let low = self.low[vertex.index()];
                        self.lower(above.index(), low);
                    }
                }
            }
        }
    }

    fn enter<G, F>(&mut self, graph: &G, filter: &F, vertex: G::VertexIndex) -> (G::VertexIndex, Vec<G::VertexIndex>)
    where
        G: Graph,
        F: Fn(G::VertexIndex, G::LabelIndex, G::VertexIndex) -> bool,
    {
        self.index[vertex.index()] = Some(self.seen);
        self.low[vertex.index()] = self.seen;
        self.seen += 1;
        self.open.push(vertex.index());
        let targets = graph.outgoing_edges(vertex).filter_map(|(label, to)| filter(vertex, label, to).then_some(to)).collect();
        (vertex, targets)
    }

    fn lower(&mut self, vertex: usize, to: usize) {
        self.low[vertex] = self.low[vertex].min(to);
    }

    /// All edges of the vertex are taken: if it is the first of its part, the part is complete.
    fn leave(&mut self, vertex: usize) {
        if self.index[vertex] != Some(self.low[vertex]) {
            return;
        }
        loop {
            let member = self.open.pop().expect("the vertex itself is open");
            self.block_of[member] = Some(self.blocks);
            if member == vertex {
                break;
            }
        }
        self.blocks += 1;
    }
}
