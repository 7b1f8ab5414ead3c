//! STAND-IN for names that the given `lib.rs` exports and the comparison never uses.

pub struct Projected;
pub fn project_variability_parity_games_iter() {}
