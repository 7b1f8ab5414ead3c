//! A game that was checked, with the solvers as its methods.
#![forbid(unsafe_code)]

use crate::doors::{self, set_words};
use crate::{Answer, Refusal, WorkArea, KEPT, MAX_TEXT, NONE};

/// Even or Odd; `player as u8` is the number in the tables.
#[derive(Clone, Copy, Debug, PartialEq, Eq, Hash)]
pub enum Player {
    /// Wins where the highest priority on a cycle is even; 0 in the tables.
    Even = 0,
    /// Wins where it is odd; 1 in the tables.
    Odd = 1,
}

impl Player {
    /// The other player.
    pub fn opponent(self) -> Player {
        match self {
            Player::Even => Player::Odd,
            Player::Odd => Player::Even,
        }
    }
}

/// The four tables of a game, not yet checked.
#[derive(Clone, Copy, Debug, PartialEq, Eq)]
pub struct Tables<'a> {
    /// 0 Even, 1 Odd.
    pub owners: &'a [u8],
    /// At most 255 each.
    pub priorities: &'a [u16],
    /// The edges of vertex v stand from `offsets[v]` up to `offsets[v + 1]`.
    pub offsets: &'a [u16],
    /// Where each edge ends.
    pub targets: &'a [u16],
}

/// A game record as it is lent to [`doors`]: sizes, tables that may have room to spare, and the kept numbers. Only the first n, n,
/// n + 1 and m entries of the tables count.
#[derive(Clone, Copy, Debug, PartialEq, Eq)]
pub struct Record<'a> {
    /// How many vertices there are.
    pub n: u64,
    /// How many edges there are.
    pub m: u64,
    /// The tables.
    pub tables: Tables<'a>,
    /// How many vertices have priority 0 to 255, how many different ones there are, the highest: [`KEPT`] numbers.
    pub kept: &'a [u64],
}

/// The tables of a game. They were checked when it was made, so no method refuses them; each says what else it refuses.
///
/// Each call of a solver, of [`attractor`](Game::attractor) and of [`check`](Game::check) allocates a work area of its own,
/// up to 17 MB for the largest game. The method of the same name with `_in` behind it takes a [`WorkArea`] instead, which can be used
/// again; [`doors`] has the same functions on buffers that the caller lends.
#[derive(Clone, Debug, PartialEq, Eq)]
pub struct Game {
    owners: Vec<u8>,
    priorities: Vec<u16>,
    offsets: Vec<u16>,
    targets: Vec<u16>,
    // a fresh count of the priorities
    kept: Vec<u64>,
}

/// Who wins where, by which choices.
#[derive(Clone, Debug, PartialEq, Eq)]
pub struct Solved {
    /// Whether Even wins, for each vertex.
    pub even: Vec<bool>,
    /// Whether Odd wins, for each vertex.
    pub odd: Vec<bool>,
    /// The chosen target where the vertex's owner wins it.
    pub strategy: Vec<Option<usize>>,
    /// Calls of Zielonka's recursion or rounds of priority promotion.
    pub count: u64,
}

impl Solved {
    /// Who wins the vertex.
    ///
    /// # Panics
    ///
    /// Where there is no such vertex.
    pub fn winner(&self, vertex: usize) -> Player {
        if self.odd[vertex] {
            Player::Odd
        } else {
            Player::Even
        }
    }
}

/// A second opinion: who wins where, without choices.
#[derive(Clone, Debug, PartialEq, Eq)]
pub struct Opinion {
    /// Whether Even wins, for each vertex.
    pub even: Vec<bool>,
    /// Whether Odd wins, for each vertex.
    pub odd: Vec<bool>,
}

/// An attractor.
#[derive(Clone, Debug, PartialEq, Eq)]
pub struct Attracted {
    /// Whether the vertex is in it, for each vertex.
    pub set: Vec<bool>,
    /// The chosen target for each vertex of the player that was drawn in: the lowest of the least distant.
    pub strategy: Vec<Option<usize>>,
    /// How far each vertex of the set is from the target: 0 in it; for a vertex of the player one more than the least of its
    /// targets in the set; for another one more than the greatest of its targets in `within`.
    pub distances: Vec<Option<usize>>,
    /// How many predecessor entries were met: the edges that end in the set.
    pub looks: u64,
}

/// A run in a game that one player owns: how to come to a cycle that the player wins, and the cycle.
#[derive(Clone, Debug, PartialEq, Eq)]
pub struct Run {
    /// From the vertex asked for to the cycle's first vertex; it may be that one vertex alone.
    pub path: Vec<usize>,
    /// Its vertices in order, each once: from the last an edge leads back to the first.
    pub cycle: Vec<usize>,
}

/// One change of a game, with numbers that may be any: [`Game::edit`] refuses what cannot be.
#[derive(Clone, Copy, Debug, PartialEq, Eq)]
pub enum Edit {
    /// Gives the vertex this priority.
    Priority {
        /// The vertex.
        vertex: u64,
        /// Its new priority.
        priority: u64,
    },
    /// Gives the vertex to this owner, 0 or 1.
    Owner {
        /// The vertex.
        vertex: u64,
        /// Its new owner.
        owner: u64,
    },
    /// Turns the edge to another target.
    Edge {
        /// The edge, by its index among the targets.
        edge: u64,
        /// Where it ends from now on.
        target: u64,
    },
}

/// The tables that a text says, also where they are no game: its edges may end at no vertex, its owners and priorities be too high.
#[derive(Clone, Debug, PartialEq, Eq)]
pub struct Export {
    room: Game,
}

impl Export {
    /// Reads PGSolver text of up to 16 MiB, with at most 4,096 vertices and 16,384 edges. Refuses by [`Refusal::BadText`],
    /// [`BadIdentifier`](Refusal::BadIdentifier) and [`BeyondLimit`](Refusal::BeyondLimit).
    ///
    /// ```
    /// use reckonbough::{Export, Game, Refusal};
    /// let text = b"0 2 0 1; 1 4 1 7;";
    /// assert_eq!(Game::read(text), Err(Refusal::BadTarget(1)));
    /// let export = Export::read(text)?;
    /// assert_eq!(export.tables().targets, [1, 7]);
    /// assert_eq!(Game::mend(export.tables())?.dropped, [1]);
    /// # Ok::<(), Refusal>(())
    /// ```
    pub fn read(text: &[u8]) -> Result<Export, Refusal> {
        let mut room = Game::with_room();
        let mut work = vec![0; room.owners.len() + room.targets.len()];
        let (answer, n, m) = doors::read_tables(text, crate::MAX_READ, room.rooms(), &mut work);
        answer.result()?;
        room.truncate(n, m);
        Ok(Export { room })
    }

    /// The four tables as the text says them, for [`Game::mend`].
    pub fn tables(&self) -> Tables<'_> {
        self.room.tables()
    }
}

/// A mended export: the game, and what was done to get it.
#[derive(Clone, Debug, PartialEq, Eq)]
pub struct Mended {
    /// The game that is left.
    pub game: Game,
    /// The edges that were dropped, by their old indexes, ascending.
    pub dropped: Vec<usize>,
    /// The vertices that got a self loop, ascending, each with its old priority.
    pub altered: Vec<(usize, u16)>,
}

impl Game {
    /// From the vertices in order: owner, priority and where its edges go.
    ///
    /// Refuses by [`Refusal::TooManyVertices`], [`TooManyEdges`](Refusal::TooManyEdges), [`Priority`](Refusal::BadPriority),
    /// [`Target`](Refusal::BadTarget) and [`NoEdge`](Refusal::DeadEnd).
    pub fn new(vertices: &[(Player, u16, &[u16])]) -> Result<Game, Refusal> {
        let mut offsets = vec![0];
        let mut targets = Vec::new();
        for (_, _, successors) in vertices {
            targets.extend_from_slice(successors);
            // one that does not fit is never looked at: there are too many edges then, which is refused first
            offsets.push(targets.len() as u16);
        }
        let owners = vertices.iter().map(|(owner, _, _)| *owner as u8).collect();
        let priorities = vertices.iter().map(|(_, priority, _)| *priority).collect();
        Game::from_tables(owners, priorities, offsets, targets)
    }

    /// From the four tables.
    ///
    /// Refuses by the numbers 1 to 8, [`Refusal::TooManyVertices`] to [`Refusal::DeadEnd`].
    pub fn from_tables(
        owners: Vec<u8>,
        priorities: Vec<u16>,
        offsets: Vec<u16>,
        targets: Vec<u16>,
    ) -> Result<Game, Refusal> {
        doors::check_tables(Tables { owners: &owners, priorities: &priorities, offsets: &offsets, targets: &targets }).result()?;
        Game::counted(owners, priorities, offsets, targets)
    }

    // From tables whose lengths agree, with their fresh count.
    fn counted(owners: Vec<u8>, priorities: Vec<u16>, offsets: Vec<u16>, targets: Vec<u16>) -> Result<Game, Refusal> {
        let mut game = Game { owners, priorities, offsets, targets, kept: vec![0; KEPT] };
        let (n, m) = game.sizes();
        doors::fresh_count(n, m, &game.owners, &game.priorities, &game.offsets, &game.targets, &mut game.kept).result()?;
        Ok(game)
    }

    fn sizes(&self) -> (u64, u64) {
        (self.owners.len() as u64, self.targets.len() as u64)
    }

    /// Sets the priority of a vertex; refuses by [`Refusal::NoSuchEntry`] and [`HighPriority`](Refusal::HighPriority), and
    /// changes nothing then.
    pub fn set_priority(&mut self, vertex: usize, priority: u16) -> Result<(), Refusal> {
        self.edit(Edit::Priority { vertex: vertex as u64, priority: u64::from(priority) })
    }

    /// Sets the owner of a vertex; refuses by [`Refusal::NoSuchEntry`], and changes nothing then.
    pub fn set_owner(&mut self, vertex: usize, owner: Player) -> Result<(), Refusal> {
        self.edit(Edit::Owner { vertex: vertex as u64, owner: owner as u64 })
    }

    /// Turns an edge, by its index among the targets, to another target; refuses by [`Refusal::NoSuchEntry`] and
    /// [`NoSuchTarget`](Refusal::NoSuchTarget), and changes nothing then.
    pub fn turn_edge(&mut self, edge: usize, target: usize) -> Result<(), Refusal> {
        self.edit(Edit::Edge { edge: edge as u64, target: target as u64 })
    }

    /// An edit whose numbers may be any; refuses by [`Refusal::NoSuchEntry`], [`HighPriority`](Refusal::HighPriority),
    /// [`NoSuchOwner`](Refusal::NoSuchOwner) and [`NoSuchTarget`](Refusal::NoSuchTarget), and changes nothing then.
    ///
    /// ```
    /// # use reckonbough::{Edit, Game, Player::*, Refusal};
    /// let mut game = Game::new(&[(Even, 2, &[1]), (Odd, 0, &[0, 1])])?;
    /// assert_eq!(game.edit(Edit::Owner { vertex: 1, owner: 2 }), Err(Refusal::NoSuchOwner(1)));
    /// game.edit(Edit::Edge { edge: 2, target: 0 })?;
    /// assert_eq!(game.successors(1), [0, 0]);
    /// # Ok::<(), Refusal>(())
    /// ```
    pub fn edit(&mut self, edit: Edit) -> Result<(), Refusal> {
        let (n, m) = self.sizes();
        let Game { owners, priorities, offsets, targets, kept } = self;
        let answer = match edit {
            Edit::Priority { vertex, priority } => {
                doors::set_priority(n, m, owners, priorities, offsets, targets, kept, vertex, priority)
            }
            Edit::Owner { vertex, owner } => doors::set_owner(n, m, owners, priorities, offsets, targets, kept, vertex, owner),
            Edit::Edge { edge, target } => doors::turn_edge(n, m, owners, priorities, offsets, targets, kept, edge, target),
        };
        answer.result().map(|_| ())
    }

    /// The kept numbers: how many vertices have priority 0 to 255, how many different ones there are, the highest.
    pub fn kept(&self) -> &[u64] {
        &self.kept
    }

    /// Reads a game from PGSolver text of up to 16 MiB, with at most 4,096 vertices and 16,384 edges.
    ///
    /// ```
    /// use reckonbough::{Game, Refusal};
    /// let game = Game::read(b"parity 1; 0 2 0 1; 1 0 1 0,1;")?;
    /// assert_eq!((game.vertices(), game.edges()), (2, 3));
    /// assert_eq!(Game::read(b"0 0 0;"), Err(Refusal::BadText(5)));
    /// # Ok::<(), Refusal>(())
    /// ```
    pub fn read(text: &[u8]) -> Result<Game, Refusal> {
        let mut game = Game::with_room();
        let mut work = vec![0; game.owners.len() + game.targets.len()];
        let (rooms, kept) = game.written();
        let (answer, n, m) = doors::read(text, crate::MAX_READ, rooms, kept, &mut work);
        answer.result()?;
        game.truncate(n, m);
        Ok(game)
    }

    /// Tables with room for the largest game.
    fn with_room() -> Game {
        let (vertices, edges) = (crate::MAX_VERTICES, crate::MAX_EDGES);
        Game {
            owners: vec![0; vertices],
            priorities: vec![0; vertices],
            offsets: vec![0; vertices + 1],
            targets: vec![0; edges],
            kept: vec![0; KEPT],
        }
    }

    fn rooms(&mut self) -> doors::Rooms<'_> {
        self.written().0
    }

    /// The tables and the kept numbers, for a reader to write.
    fn written(&mut self) -> (doors::Rooms<'_>, &mut [u64]) {
        let Game { owners, priorities, offsets, targets, kept } = self;
        (doors::Rooms { owners, priorities, offsets, targets }, kept)
    }

    /// Leaves the tables of n vertices and m edges, without the room behind them.
    fn truncate(&mut self, n: usize, m: usize) {
        self.owners.truncate(n);
        self.priorities.truncate(n);
        self.offsets.truncate(n + 1);
        self.targets.truncate(m);
    }

    /// From the tables of an incomplete export: drops each edge that ends at no vertex, then gives every vertex without an edge a
    /// self loop and, as its owner is stuck and loses there, priority 1 if the owner is Even and 0 if Odd. All else stays. Tables
    /// that [`from_tables`](Game::from_tables) takes come back as they are.
    ///
    /// Refuses by the numbers 1 to 6, [`Refusal::TooManyVertices`] to [`Refusal::BadOffset`], and by
    /// [`TooManyEdges`](Refusal::TooManyEdges) where the result has too many.
    ///
    /// ```
    /// # use reckonbough::{Game, Player::*, Tables};
    /// let tables = Tables { owners: &[0, 1], priorities: &[4, 7], offsets: &[0, 2, 3], targets: &[1, 9, 2] };
    /// let mended = Game::mend(tables)?;
    /// assert_eq!(mended.game, Game::new(&[(Even, 4, &[1]), (Odd, 0, &[1])])?);
    /// assert_eq!(mended.dropped, [1, 2]);
    /// assert_eq!(mended.altered, [(1, 7)]);
    /// # Ok::<(), reckonbough::Refusal>(())
    /// ```
    pub fn mend(tables: Tables<'_>) -> Result<Mended, Refusal> {
        let (n, m) = (tables.owners.len(), tables.targets.len());
        let (mut priorities, mut offsets) = (vec![0; n], vec![0; n + 1]);
        let (mut targets, mut list) = (vec![0; m + n], vec![0; m + 2 * n]);
        let count = doors::mend(tables, &mut priorities, &mut offsets, &mut targets, &mut list).result()? as usize;
        targets.truncate(usize::from(offsets[n]));
        let altered = (count + targets.len() - m) / 3;
        let (dropped, pairs) = list[..count].split_at(count - 2 * altered);
        Ok(Mended {
            dropped: dropped.iter().map(|edge| usize::from(*edge)).collect(),
            altered: pairs.chunks(2).map(|pair| (usize::from(pair[0]), pair[1])).collect(),
            game: Game::counted(tables.owners.to_vec(), priorities, offsets, targets)?,
        })
    }

    /// The four tables, to be lent to [`doors`].
    pub fn tables(&self) -> Tables<'_> {
        Tables { owners: &self.owners, priorities: &self.priorities, offsets: &self.offsets, targets: &self.targets }
    }

    /// The game record, to be lent to [`doors`].
    pub fn record(&self) -> Record<'_> {
        let (n, m) = self.sizes();
        Record { n, m, tables: self.tables(), kept: &self.kept }
    }

    /// How many vertices there are.
    pub fn vertices(&self) -> usize {
        self.owners.len()
    }

    /// How many edges there are, parallel ones each for itself.
    pub fn edges(&self) -> usize {
        self.targets.len()
    }

    /// Who owns the vertex.
    ///
    /// # Panics
    ///
    /// Where there is no such vertex.
    pub fn owner(&self, vertex: usize) -> Player {
        if self.owners[vertex] == 0 {
            Player::Even
        } else {
            Player::Odd
        }
    }

    /// The vertex's priority.
    ///
    /// # Panics
    ///
    /// Where there is no such vertex.
    pub fn priority(&self, vertex: usize) -> u16 {
        self.priorities[vertex]
    }

    /// Where the vertex's edges go, one or more targets in the table's order.
    ///
    /// # Panics
    ///
    /// Where there is no such vertex.
    pub fn successors(&self, vertex: usize) -> &[u16] {
        &self.targets[usize::from(self.offsets[vertex])..usize::from(self.offsets[vertex + 1])]
    }

    /// Solves by Zielonka's recursion, in at most `budget` calls.
    ///
    /// Refuses by [`Refusal::OverBudget`] alone. With n vertices and d different priorities 2·(C(n,0)+C(n,1)+...+C(n,d))−1 calls
    /// are always enough; `u64::MAX` asks for an answer however long it takes. It nests at most n + 1 calls: on x86-64 2 MiB
    /// of stack are enough, the size that `std::thread` gives.
    pub fn solve_zielonka(&self, budget: u64) -> Result<Solved, Refusal> {
        self.solve_zielonka_in(budget, &mut WorkArea::new())
    }

    /// [`solve_zielonka`](Game::solve_zielonka) in a work area that can be used again.
    pub fn solve_zielonka_in(&self, budget: u64, work: &mut WorkArea) -> Result<Solved, Refusal> {
        self.solve(doors::zielonka, budget, work)
    }

    /// Solves by priority promotion, in at most `budget` rounds.
    ///
    /// Refuses by [`Refusal::OverBudget`] alone. With n vertices and d different priorities n·(n+2)^d rounds are always enough;
    /// `u64::MAX` asks for an answer however long it takes.
    pub fn solve_priority_promotion(&self, budget: u64) -> Result<Solved, Refusal> {
        self.solve_priority_promotion_in(budget, &mut WorkArea::new())
    }

    /// [`solve_priority_promotion`](Game::solve_priority_promotion) in a work area that can be used again.
    pub fn solve_priority_promotion_in(&self, budget: u64, work: &mut WorkArea) -> Result<Solved, Refusal> {
        self.solve(doors::priority_promotion, budget, work)
    }

    /// A second opinion, by the quasi-polynomial recursion: the same sets by another way, without a strategy and without a budget.
    /// It shares the tables, the sets, the predecessors and the attractor with the other two solvers.
    ///
    /// ```
    /// # use reckonbough::{Game, Player::*};
    /// // a vertex that leads to itself: a dominion of one vertex
    /// let opinion = Game::new(&[(Even, 0, &[0])])?.solve_quasi_polynomial();
    /// assert_eq!((opinion.even, opinion.odd), (vec![true], vec![false]));
    /// # Ok::<(), reckonbough::Refusal>(())
    /// ```
    pub fn solve_quasi_polynomial(&self) -> Opinion {
        self.solve_quasi_polynomial_in(&mut WorkArea::new())
    }

    /// [`solve_quasi_polynomial`](Game::solve_quasi_polynomial) in a work area that can be used again.
    pub fn solve_quasi_polynomial_in(&self, work: &mut WorkArea) -> Opinion {
        let (mut even, mut odd) = (self.set(), self.set());
        let answer = doors::quasi_polynomial(self.record(), &mut even, &mut odd, self.words_of(work));
        answer.result().expect("a checked game with buffers that fit is answered");
        Opinion { even: self.members(&even), odd: self.members(&odd) }
    }

    fn solve(&self, solver: Solver, budget: u64, work: &mut WorkArea) -> Result<Solved, Refusal> {
        let (mut even, mut odd, mut strategy) = (self.set(), self.set(), self.strategy());
        let answer = solver(self.record(), budget, &mut even, &mut odd, &mut strategy, self.words_of(work));
        let count = answer.result()?;
        Ok(Solved { even: self.members(&even), odd: self.members(&odd), strategy: choices(&strategy), count })
    }

    /// The vertices that the owner of all vertices wins, for each vertex whether it is one.
    ///
    /// Refuses by [`Refusal::OwnersDiffer`].
    pub fn solve_solitaire_game(&self) -> Result<Vec<bool>, Refusal> {
        self.solve_solitaire_game_in(&mut WorkArea::new())
    }

    /// [`solve_solitaire_game`](Game::solve_solitaire_game) in a work area that can be used again.
    pub fn solve_solitaire_game_in(&self, work: &mut WorkArea) -> Result<Vec<bool>, Refusal> {
        let mut set = self.set();
        doors::solitaire(self.record(), &mut set, self.words_of(work)).result()?;
        Ok(self.members(&set))
    }

    /// A run from the vertex in a game that one player owns: a path to a cycle whose highest priority is of the owner's parity, and
    /// the cycle. There is one exactly where [`solve_solitaire_game`](Game::solve_solitaire_game) says that the owner wins.
    ///
    /// Refuses by [`Refusal::OwnersDiffer`], by [`Refusal::NoSuchVertex`], and by [`Refusal::NoLoop`] where the owner does not win.
    ///
    /// ```
    /// # use reckonbough::{Game, Player::*, Refusal};
    /// let game = Game::new(&[(Even, 1, &[1]), (Even, 2, &[2, 2]), (Even, 1, &[1]), (Even, 3, &[3])])?;
    /// let run = game.show_loop(0)?;
    /// assert_eq!((run.path, run.cycle), (vec![0, 1], vec![1, 2]));
    /// assert_eq!(game.show_loop(3), Err(Refusal::NoLoop(3)));
    /// # Ok::<(), reckonbough::Refusal>(())
    /// ```
    pub fn show_loop(&self, vertex: usize) -> Result<Run, Refusal> {
        self.show_loop_in(vertex, &mut WorkArea::new())
    }

    /// [`show_loop`](Game::show_loop) in a work area that can be used again.
    pub fn show_loop_in(&self, vertex: usize, work: &mut WorkArea) -> Result<Run, Refusal> {
        let (mut path, mut cycle) = (vec![0; 2 * self.vertices()], vec![0; 2 * self.vertices()]);
        let work = self.words_of(work);
        let (answer, length) = doors::show_loop(self.record(), vertex as u64, &mut path, &mut cycle, work);
        let both = answer.result()? as usize;
        let listed = |list: &[u16]| list.iter().map(|v| usize::from(*v)).collect();
        Ok(Run { path: listed(&path[..length]), cycle: listed(&cycle[..both - length]) })
    }

    /// The attractor of `target` in `within` for the player.
    ///
    /// Refuses by [`Refusal::BadSize`] where `within` or `target` has not one entry a vertex, and by [`Refusal::StrayBit`] at the
    /// lowest vertex of `target` that is not in `within`.
    pub fn attractor(&self, player: Player, within: &[bool], target: &[bool]) -> Result<Attracted, Refusal> {
        self.attractor_in(player, within, target, &mut WorkArea::new())
    }

    /// [`attractor`](Game::attractor) in a work area that can be used again.
    pub fn attractor_in(
        &self,
        player: Player,
        within: &[bool],
        target: &[bool],
        work: &mut WorkArea,
    ) -> Result<Attracted, Refusal> {
        let (mut set, mut strategy, mut distances) = (self.set(), self.strategy(), self.strategy());
        let (within, target, work) = (self.words(within)?, self.words(target)?, self.words_of(work));
        let (record, player) = (self.record(), player as u8);
        let answer = doors::attractor(record, player, &within, &target, &mut set, &mut strategy, &mut distances, work);
        let looks = answer.result()?;
        let (strategy, distances) = (choices(&strategy), choices(&distances));
        Ok(Attracted { set: self.members(&set), strategy, distances, looks })
    }

    /// Whether Even wins from `even` and Odd from `odd` by the strategy: yes, or the first thing that is wrong.
    ///
    /// Refuses by [`Refusal::BadSize`] where one of them has not one entry a vertex. What is wrong is one of
    /// [`NotOneWinner`](Refusal::NotOneWinner), [`BadEntry`](Refusal::BadEntry), [`LeavesSet`](Refusal::LeavesSet) and
    /// [`LosingCycle`](Refusal::LosingCycle). A result that was kept without its strategy leaves nothing to check by: where no
    /// vertex has a choice, [`NoStrategy`](Refusal::NoStrategy) stands in the place of `BadEntry`.
    pub fn check(&self, even: &[bool], odd: &[bool], strategy: &[Option<usize>]) -> Result<(), Refusal> {
        self.check_in(even, odd, strategy, &mut WorkArea::new())
    }

    /// [`check`](Game::check) in a work area that can be used again.
    pub fn check_in(
        &self,
        even: &[bool],
        odd: &[bool],
        strategy: &[Option<usize>],
        work: &mut WorkArea,
    ) -> Result<(), Refusal> {
        let entries: Vec<u16> = strategy.iter().map(|choice| entry(*choice)).collect();
        let (even, odd) = (self.words(even)?, self.words(odd)?);
        doors::check(self.record(), &even, &odd, &entries, self.words_of(work)).result()?;
        Ok(())
    }

    /// The new priorities: the lowest and fewest numbers that keep order and parity, with the same winners. The lowest priority
    /// used becomes 0 or 1 by its parity, each next different one the last new number plus 1 if parity differs, else the same
    /// number. Compacting what was compacted changes nothing. It refuses nothing.
    ///
    /// ```
    /// # use reckonbough::{Game, Player::*};
    /// let game = Game::new(&[(Even, 3, &[0]), (Odd, 7, &[0, 1]), (Even, 4, &[2, 1])])?;
    /// assert_eq!(game.compact()?, [1, 3, 2]);
    /// let game = Game::new(&[(Even, 3, &[0]), (Odd, 7, &[0, 1]), (Even, 8, &[2, 1])])?;
    /// assert_eq!(game.compact()?, [1, 1, 2]);
    /// # Ok::<(), reckonbough::Refusal>(())
    /// ```
    pub fn compact(&self) -> Result<Vec<u16>, Refusal> {
        let (mut new_priorities, mut new_kept) = (vec![0; self.vertices()], vec![0; KEPT]);
        doors::compact(self.record(), &mut new_priorities, &mut new_kept).result()?;
        Ok(new_priorities)
    }

    /// The game as PGSolver text. It refuses a game without a vertex.
    ///
    /// ```
    /// # use reckonbough::{Game, Player::*};
    /// let game = Game::new(&[(Even, 2, &[1]), (Odd, 0, &[0, 1])])?;
    /// assert_eq!(game.write()?, b"parity 1;\n0 2 0 1;\n1 0 1 0,1;\n");
    /// # Ok::<(), reckonbough::Refusal>(())
    /// ```
    pub fn write(&self) -> Result<Vec<u8>, Refusal> {
        let mut text = vec![0; MAX_TEXT];
        let length = doors::write(self.record(), &mut text).result()?;
        text.truncate(length as usize);
        Ok(text)
    }

    fn set(&self) -> Vec<u64> {
        vec![0; set_words(self.vertices())]
    }

    fn strategy(&self) -> Vec<u16> {
        vec![NONE; self.vertices()]
    }

    fn words_of<'a>(&self, work: &'a mut WorkArea) -> &'a mut [u64] {
        work.words(self.vertices(), self.edges())
    }

    /// Vertex v stands at bit v % 64 of word v / 64. Members that are not n are no set of this game.
    fn words(&self, members: &[bool]) -> Result<Vec<u64>, Refusal> {
        if members.len() != self.vertices() {
            return Err(Refusal::BadSize);
        }
        let mut words = self.set();
        for (v, member) in members.iter().enumerate() {
            words[v / 64] |= u64::from(*member) << (v % 64);
        }
        Ok(words)
    }

    fn members(&self, words: &[u64]) -> Vec<bool> {
        (0..self.vertices()).map(|v| words[v / 64] >> (v % 64) & 1 == 1).collect()
    }
}

type Solver = fn(Record<'_>, u64, &mut [u64], &mut [u64], &mut [u16], &mut [u64]) -> Answer;

fn choices(strategy: &[u16]) -> Vec<Option<usize>> {
    strategy.iter().map(|entry| if *entry == NONE { None } else { Some(usize::from(*entry)) }).collect()
}

/// A choice as an entry. A number too large for an entry is no vertex, and becomes another number that is none: so it is
/// refused where it stands and never read as no choice.
fn entry(choice: Option<usize>) -> u16 {
    match choice {
        None => NONE,
        Some(vertex) => vertex.min(usize::from(NONE) - 1) as u16,
    }
}

/// Reads a game whose PGSolver text comes in portions, as over a serial line. It gives what [`Game::read`] of the whole text gives,
/// with places counted from the start of the text.
///
/// ```
/// use reckonbough::{Game, Reader, Refusal};
/// let mut reader = Reader::new();
/// reader.portion(b"parity 1; 0 2 0 1; 1 ")?;
/// reader.portion(b"0 1 0,1;")?;
/// assert_eq!(reader.end()?, Game::read(b"parity 1; 0 2 0 1; 1 0 1 0,1;")?);
///
/// let mut reader = Reader::new();
/// reader.portion(b"0 2 0 1")?;
/// assert_eq!(reader.portion(b"; x"), Err(Refusal::BadText(9)));
/// assert_eq!(reader.portion(b"1 0 1 0;"), Err(Refusal::BadText(9)));
/// assert_eq!(reader.end(), Err(Refusal::BadText(9)));
/// # Ok::<(), Refusal>(())
/// ```
pub struct Reader {
    state: [u64; 32],
    game: Game,
}

impl Reader {
    /// Before the first byte.
    pub fn new() -> Reader {
        let mut reader = Reader { state: [0; 32], game: Game::with_room() };
        // these rooms and this state get neither 9 nor 10
        let _ = doors::read_start(crate::MAX_READ, &mut reader.state, reader.game.rooms());
        reader
    }

    /// One portion more. After a refusal every further portion gets that refusal again.
    pub fn portion(&mut self, portion: &[u8]) -> Result<(), Refusal> {
        doors::read_portion(portion, &mut self.state, self.game.rooms()).result()?;
        Ok(())
    }

    /// The end of the text.
    pub fn end(mut self) -> Result<Game, Refusal> {
        let mut work = vec![0; self.game.owners.len() + self.game.targets.len()];
        let (rooms, kept) = self.game.written();
        let (answer, n, m) = doors::read_end(&mut self.state, rooms, kept, &mut work);
        answer.result()?;
        self.game.truncate(n, m);
        Ok(self.game)
    }
}

impl Default for Reader {
    fn default() -> Reader {
        Reader::new()
    }
}
