//! The games that are compared. Everything is fixed: the same number gives the same game on every machine.

use crate::game::Game;

/// A small generator of numbers (splitmix64).
pub struct Numbers(u64);

impl Numbers {
    pub fn new(seed: u64) -> Numbers {
        Numbers(seed)
    }

    pub fn next(&mut self) -> u64 {
        self.0 = self.0.wrapping_add(0x9e37_79b9_7f4a_7c15);
        let mut x = self.0;
        x = (x ^ (x >> 30)).wrapping_mul(0xbf58_476d_1ce4_e5b9);
        x = (x ^ (x >> 27)).wrapping_mul(0x94d0_49bb_1331_11eb);
        x ^ (x >> 31)
    }

    pub fn below(&mut self, end: usize) -> usize {
        (self.next() % end as u64) as usize
    }

    pub fn between(&mut self, low: usize, high: usize) -> usize {
        low + self.below(high + 1 - low)
    }

    pub fn one_in(&mut self, times: usize) -> bool {
        self.below(times) == 0
    }
}

/// Every game of two vertices with priorities 0 to 3 and one or two edges a vertex, in either order, parallel ones included.
pub fn two_vertices() -> impl Iterator<Item = Game> {
    let edges: [&[u16]; 6] = [&[0], &[1], &[0, 0], &[0, 1], &[1, 0], &[1, 1]];
    let vertices: Vec<(u8, u16, &[u16])> =
        (0..2 * 4 * 6).map(|i| ((i % 2) as u8, (i / 2 % 4) as u16, edges[i / 8])).collect();
    let pairs = (0..vertices.len()).flat_map(|a| (0..48).map(move |b| (a, b)));
    pairs.map(move |(a, b)| Game::new(&[vertices[a], vertices[b]]))
}

/// Every game of three vertices with priorities 0 to 2 and at most one edge between two vertices, self loops included.
pub fn three_vertices() -> impl Iterator<Item = Game> {
    let targets = |set: usize| (0..3).filter(|w| set >> w & 1 == 1).collect::<Vec<u16>>();
    let vertices: Vec<(u8, u16, Vec<u16>)> =
        (0..2 * 3 * 7).map(|i| ((i % 2) as u8, (i / 2 % 3) as u16, targets(1 + i / 6))).collect();
    let count = vertices.len();
    (0..count * count * count).map(move |i| {
        let mut game = Game::empty();
        for at in [i % count, i / count % count, i / count / count] {
            let (owner, priority, targets) = &vertices[at];
            game.push(*owner, *priority, targets);
        }
        game
    })
}

/// The shape of a random game.
#[derive(Clone, Copy, Debug)]
pub struct Shape {
    pub n: usize,
    pub most_edges: usize,
    pub priorities: usize,
    /// How far an edge leads at most; n for anywhere.
    pub reach: usize,
    /// One in so many edges is repeated at once.
    pub repeats: usize,
    /// 0 or 1 for all vertices, 2 for either.
    pub owner: u8,
}

pub fn of_shape(shape: Shape, numbers: &mut Numbers) -> Game {
    let mut game = Game::empty();
    for v in 0..shape.n {
        let owner = if shape.owner < 2 { shape.owner } else { numbers.below(2) as u8 };
        let priority = numbers.below(shape.priorities) as u16;
        let mut targets = Vec::new();
        for _ in 0..numbers.between(1, shape.most_edges) {
            let w = (v + shape.n + numbers.between(0, 2 * shape.reach) - shape.reach) % shape.n;
            targets.push(w as u16);
            if numbers.one_in(shape.repeats) {
                targets.push(w as u16);
            }
        }
        game.push(owner, priority, &targets);
    }
    game
}

/// The random game of a number, of 1 to 200 vertices; small ones come more often.
pub fn random(number: u64) -> Game {
    let mut numbers = Numbers::new(number.wrapping_mul(0x1234_5678_9abc_def1));
    let most = [4, 6, 6, 12, 12, 30, 65, 130, 200][numbers.below(9)];
    let n = numbers.between(1, most);
    let shape = Shape {
        n,
        most_edges: numbers.between(1, 4),
        priorities: [2, 3, 4, 6, 10, 20, 256][numbers.below(7)],
        reach: if numbers.one_in(3) { 3.min(n) } else { n },
        repeats: [3, 5, 20][numbers.below(3)],
        owner: [0, 1, 2, 2, 2, 2, 2, 2][numbers.below(8)],
    };
    of_shape(shape, &mut numbers)
}

/// A game of 4,096 vertices and at most 16,384 edges. One in three has near edges only, and few priorities: with many it
/// would take both solvers too long.
pub fn large(number: u64) -> Game {
    let mut numbers = Numbers::new(number ^ 0x4096_4096_4096_4096);
    let near = number % 3 == 0;
    let shape = Shape {
        n: 4_096,
        most_edges: [2, 3][number as usize % 2],
        priorities: if near { [3, 4][number as usize % 2] } else { [2, 3, 8, 64, 256][number as usize % 5] },
        reach: if near { 3 } else { 4_096 },
        repeats: 20,
        owner: [2, 2, 2, 0, 2, 2, 2, 1][number as usize % 8],
    };
    of_shape(shape, &mut numbers)
}

/// Vertex v belongs to player v mod 2, has priority v mod 2 and leads to the next two.
pub fn ladder(n: usize) -> Game {
    let mut game = Game::empty();
    for v in 0..n {
        game.push((v % 2) as u8, (v % 2) as u16, &[((v + 1) % n) as u16, ((v + 2) % n) as u16]);
    }
    game
}

/// n/2 pairs: E2 -> the pair's other; E1 -> itself, the next pair. The recursion takes one pair off at a time, so that it
/// nests n/2 + 1 deep: 2,049 with 4,096 vertices.
pub fn chain(n: usize) -> Game {
    let mut game = Game::empty();
    for pair in 0..n as u16 / 2 {
        game.push(0, 2, &[2 * pair + 1]);
        let last = 2 * pair as usize + 2 >= n;
        let targets: &[u16] = &[2 * pair + 1, 2 * pair + 2];
        game.push(0, 1, if last { &targets[..1] } else { targets });
    }
    game
}

/// The incomplete export of a number: targets that are no vertices, and vertices without edges. One in 100 has 4,096 vertices,
/// every other of those 16,384 edges, of which the self loops of dead ends may be too many.
pub fn damaged(number: u64) -> Game {
    let mut numbers = Numbers::new(number.wrapping_mul(0x0fed_cba9_8765_4321));
    let full = number % 200 == 100;
    let whole = match number % 200 {
        0 => large(number / 200),
        100 => of_most_edges(&mut numbers),
        _ => random(number),
    };
    let (missing, dead) = ([1, 2, 5, 40, 5_000][numbers.below(5)], [3, 10, 100, 10_000][numbers.below(4)]);
    let n = whole.n();
    let outside = |numbers: &mut Numbers| [n, n, n + 1, n + numbers.below(65_536 - n), 65_535][numbers.below(5)] as u16;
    let mut game = Game::empty();
    for v in 0..n {
        let edges = if !full && numbers.one_in(dead) { &[] } else { whole.edges(v) };
        let targets: Vec<u16> =
            edges.iter().map(|w| if numbers.one_in(missing) { outside(&mut numbers) } else { *w }).collect();
        game.push(whole.owners[v], whole.priorities[v], &targets);
    }
    game
}

/// 4,096 vertices and 16,384 edges, up to four or eight at a vertex and the rest at the last one; some are dead ends.
fn of_most_edges(numbers: &mut Numbers) -> Game {
    let most = [4, 8][numbers.below(2)];
    let mut game = Game::empty();
    for v in 0..4_096 {
        let left = 16_384 - game.m();
        let many = if v == 4_095 { left } else { numbers.between(0, most).min(left) };
        let targets: Vec<u16> = (0..many).map(|_| numbers.below(4_096) as u16).collect();
        game.push(numbers.below(2) as u8, numbers.below(256) as u16, &targets);
    }
    game
}
