//! STAND-IN for merc's `BlockPartition` and `IndexedPartition`.

use std::fmt::Debug;

use merc_utilities::TagIndex;

/// The tag of a block's index.
pub struct BlockTag;

/// The index of a block.
pub type BlockIndex = TagIndex<usize, BlockTag>;

/// For each element the block it is in, if any.
pub struct IndexedPartition {
    pub(crate) block_of: Vec<Option<usize>>,
    pub(crate) blocks: usize,
}

impl IndexedPartition {
    pub fn num_of_blocks(&self) -> usize {
        self.blocks
    }
}

/// For each block its elements, ascending. An element without a block is in none.
pub struct BlockPartition<T> {
    blocks: Vec<(Vec<usize>, T)>,
}

impl<T: Clone + Debug + Default> BlockPartition<T> {
    pub fn from_indexed_partition(partition: &IndexedPartition) -> Self {
        let mut blocks = vec![(Vec::new(), T::default()); partition.blocks];
        for (element, block) in partition.block_of.iter().enumerate() {
            if let Some(block) = block {
                blocks[*block].0.push(element);
            }
        }
        BlockPartition { blocks }
    }

    pub fn iter_block(&self, block: BlockIndex) -> impl Iterator<Item = usize> + '_ {
        self.blocks[block].0.iter().copied()
    }
}
