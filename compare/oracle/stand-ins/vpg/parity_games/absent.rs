//! STAND-IN for names that the given `lib.rs` exports and the comparison never uses.

pub struct PGBuilder;
pub struct ParityGameBuilder;
pub struct ParityGameFormat;
pub struct PgDot;
pub struct VpgDot;
pub fn guess_format_from_extension() {}
pub fn make_vpg_total() {}
pub fn random_parity_game() {}
pub fn read_pg() {}
pub fn read_vpg() {}
pub fn write_pg() {}
pub fn write_vpg() {}
