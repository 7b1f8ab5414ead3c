//! STAND-IN for merc's `ByteCompressedVec`. It does not compress.

use merc_utilities::TagIndex;

/// What a [`ByteCompressedVec`] can hold.
pub trait CompressedEntry: Copy {
    fn zero() -> Self;

    /// The bytes that the value needs. The stand-in does not compress, so nobody reads the answer.
    fn bytes_required(&self) -> usize;
}

impl CompressedEntry for usize {
    fn zero() -> Self {
        0
    }

    fn bytes_required(&self) -> usize {
        ((usize::BITS - self.leading_zeros()) as usize).div_ceil(8).max(1)
    }
}

impl<Tag> CompressedEntry for TagIndex<usize, Tag> {
    fn zero() -> Self {
        TagIndex::new(0)
    }

    fn bytes_required(&self) -> usize {
        self.value().bytes_required()
    }
}

/// A vector with the interface of the original; the stand-in keeps its entries as they are, not compressed.
pub struct ByteCompressedVec<T> {
    entries: Vec<T>,
}

impl<T: CompressedEntry> ByteCompressedVec<T> {
    pub fn with_capacity(len: usize, _bytes: usize) -> Self {
        ByteCompressedVec { entries: Vec::with_capacity(len) }
    }

    pub fn resize_zeroed(&mut self, len: usize, _bytes: usize) {
        self.entries.resize(len, T::zero());
    }

    pub fn push(&mut self, entry: T) {
        self.entries.push(entry);
    }

    pub fn set(&mut self, index: usize, entry: T) {
        self.entries[index] = entry;
    }

    pub fn index(&self, index: usize) -> T {
        self.entries[index]
    }

    pub fn len(&self) -> usize {
        self.entries.len()
    }

    pub fn is_empty(&self) -> bool {
        self.entries.is_empty()
    }

    pub fn iter(&self) -> impl Iterator<Item = T> + '_ {
        self.entries.iter().copied()
    }
}
