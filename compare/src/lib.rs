//! Comparison by running: the oracle (five given files of merc on stand-ins), a reference written from document 01's rules,
//! a solver that goes by demand 2's definition, and, with the feature `port`, the port itself.

pub mod compare;
pub mod definition;
#[cfg(feature = "port")]
pub mod edits;
pub mod game;
pub mod generate;
pub mod hard;
pub mod list;
pub mod oracle;
#[cfg(feature = "port")]
pub mod port;
#[cfg(feature = "port")]
pub mod port_check;
pub mod probe;
pub mod reader;
pub mod reference;
pub mod slip;
#[cfg(feature = "port")]
pub mod texts;
#[cfg(feature = "port")]
pub mod trips;
