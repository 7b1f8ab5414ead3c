//! STAND-IN for names that the given `lib.rs` exports and the comparison never uses.

pub struct AttractorProgress;
pub struct ExtendedParityGame;
pub struct RecursionProgress;
pub struct SymbolicParityGame;
pub struct SymbolicSolution;
pub fn convert_symbolic_parity_game() {}
pub fn detect_fatal_attractors() {}
pub fn detect_fatal_attractors_within_safe_vertices() {}
pub fn detect_forced_cycles() {}
pub fn detect_forced_cycles_within_safe_vertices() {}
pub fn detect_solitair_cycles() {}
pub fn detect_solitair_cycles_within_safe_vertices() {}
pub fn encode_parity_game() {}
pub fn partial_solve() {}
pub fn solve_symbolic_zielonka() {}
pub fn verify_symbolic_strategy() {}
