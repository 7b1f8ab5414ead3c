//! STAND-IN for names that the given `lib.rs` exports and the comparison never uses.

pub struct ProjectedLts;
pub fn project_feature_transition_system_iter() {}
