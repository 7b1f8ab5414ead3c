//! STAND-IN, not the crate merc_collections. It has the names that the given files use and no more.

mod compressed;
mod graph;
mod partition;

pub use compressed::{ByteCompressedVec, CompressedEntry};
pub use graph::{scc_decomposition_iterative, Graph};
pub use partition::{BlockIndex, BlockPartition, IndexedPartition};
