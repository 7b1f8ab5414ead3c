//! The tables of a game, as document 01 lays them out.

/// A strategy entry that chooses nothing.
pub const NONE: u16 = 65_535;

/// Owners, priorities, offsets, targets. Nothing is checked here: broken tables can be written down too.
#[derive(Clone, Debug, Default, PartialEq, Eq)]
pub struct Game {
    pub owners: Vec<u8>,
    pub priorities: Vec<u16>,
    pub offsets: Vec<u16>,
    pub targets: Vec<u16>,
}

impl Game {
    /// No vertices; [`Game::push`] adds them.
    pub fn empty() -> Game {
        Game { offsets: vec![0], ..Game::default() }
    }

    pub fn new(vertices: &[(u8, u16, &[u16])]) -> Game {
        let mut game = Game::empty();
        for (owner, priority, targets) in vertices {
            game.push(*owner, *priority, targets);
        }
        game
    }

    pub fn push(&mut self, owner: u8, priority: u16, targets: &[u16]) {
        self.owners.push(owner);
        self.priorities.push(priority);
        self.targets.extend_from_slice(targets);
        self.offsets.push(self.targets.len() as u16);
    }

    pub fn n(&self) -> usize {
        self.owners.len()
    }

    pub fn m(&self) -> usize {
        self.targets.len()
    }

    /// The targets of the vertex's edges, in table order.
    pub fn edges(&self, v: usize) -> &[u16] {
        &self.targets[self.offsets[v] as usize..self.offsets[v + 1] as usize]
    }

    /// All owners are equal.
    pub fn is_solitaire(&self) -> bool {
        self.owners.windows(2).all(|pair| pair[0] == pair[1])
    }

    /// How many different priorities there are.
    pub fn different_priorities(&self) -> usize {
        let mut sorted = self.priorities.clone();
        sorted.sort_unstable();
        sorted.dedup();
        sorted.len()
    }
}

/// The words of a set of n vertices: vertex v at bit v mod 64 of word v / 64.
pub fn words_of(members: &[bool]) -> Vec<u64> {
    let mut words = vec![0; members.len().div_ceil(64)];
    for (v, member) in members.iter().enumerate() {
        words[v / 64] |= (*member as u64) << (v % 64);
    }
    words
}

/// The vertices with the given winner, as words.
pub fn won_by(winners: &[u8], player: u8) -> Vec<u64> {
    let members: Vec<bool> = winners.iter().map(|winner| *winner == player).collect();
    words_of(&members)
}

/// The worked games C1 to C9 of document 01.
pub fn worked() -> Vec<(&'static str, Game)> {
    vec![
        ("C1", Game::empty()),
        ("C2", Game::new(&[(0, 0, &[0])])),
        ("C3", Game::new(&[(0, 1, &[0])])),
        ("C4", Game::new(&[(0, 0, &[1]), (1, 1, &[0, 1])])),
        ("C5", Game::new(&[(1, 1, &[1, 1]), (0, 2, &[1])])),
        ("C6", Game::new(&[(0, 2, &[1]), (1, 1, &[1])])),
        ("C7", Game::new(&[(0, 2, &[1]), (1, 0, &[0, 1])])),
        ("C8", Game::new(&[(0, 1, &[1]), (0, 2, &[2]), (0, 1, &[1]), (0, 3, &[3])])),
        ("C9", Game::new(&[(0, 2, &[1]), (0, 1, &[1])])),
    ]
}
