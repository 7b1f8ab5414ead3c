//! STAND-IN for names that the given `lib.rs` exports and the comparison never uses.

pub fn translate() {}
