//! STAND-IN for merc's `solver`. The given `lib.rs` exports no name that leads to `solve_solitaire_game`, so this type of
//! ours is the door to it.

use crate::PG;
use crate::Set;

pub struct Solver;
pub struct VpgSolver;

impl Solver {
    pub fn solitaire<G: PG>(game: &G) -> Set {
        crate::solve_solitaire_game(game)
    }
}
