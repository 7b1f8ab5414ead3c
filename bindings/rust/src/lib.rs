//! Reckonbough: parity games, solved by code that is proved correct.
//!
//! [`Game`] holds checked tables and sizes every buffer itself; a [`WorkArea`] is for many calls. [`doors`] has the library's functions as they are, on slices
//! that the caller lends; each gives an [`Answer`]: a number, a place and a count. The proofs end at the library: this crate
//! is plain Rust that passes slices on and turns words into sets.
//!
//! ```
//! use reckonbough::{Game, Player::*};
//!
//! let game = Game::new(&[(Even, 2, &[1]), (Odd, 0, &[0, 1])])?;
//! let solved = game.solve_zielonka(u64::MAX)?;
//! assert_eq!(solved.even, [true, true]);
//! assert_eq!(solved.strategy, [Some(1), None]);
//! game.check(&solved.even, &solved.odd, &solved.strategy)?;
//! # Ok::<(), reckonbough::Refusal>(())
//! ```
#![deny(unsafe_code)]
#![warn(missing_docs)]

mod answer;
#[allow(unsafe_code)]
pub mod doors;
mod game;
mod work;

pub use answer::{Answer, Refusal};
pub use game::{Attracted, Edit, Export, Game, Mended, Opinion, Player, Reader, Record, Run, Solved, Tables};
pub use work::WorkArea;

/// A strategy entry that chooses nothing.
pub const NONE: u16 = 65_535;
/// The most vertices of a game.
pub const MAX_VERTICES: usize = 4_096;
/// The most edges of a game.
pub const MAX_EDGES: usize = 16_384;
/// The highest priority of a game.
pub const MAX_PRIORITY: u16 = 255;
/// The kept numbers of a record: how many vertices have priority 0 to 255, how many different ones there are, the highest.
pub const KEPT: usize = 258;
/// The most bytes that the text of a game needs, as [`Game::write`] writes it.
pub const MAX_TEXT: usize = 131_085;
/// The longest text that [`Game::read`] takes, in bytes.
pub const MAX_READ: u64 = 1 << 24;
/// The version of this crate and of the library that it is made for.
pub const VERSION: &str = env!("CARGO_PKG_VERSION");
