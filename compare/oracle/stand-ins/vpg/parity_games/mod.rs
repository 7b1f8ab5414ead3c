//! STAND-IN, not merc's module. `parity_game` and `solitaire_game` are merc's own, as given.

mod absent;
mod parity_game;
mod player;
mod predecessors;
mod solitaire_game;

pub use absent::*;
pub use parity_game::*;
pub use player::*;
pub use predecessors::*;
pub use solitaire_game::*;
