//! STAND-IN, not the crate bitvec. It has the names that the given files use and no more.
//!
//! Bits are kept in words of `usize`, bit i at place i mod 64 of word i / 64. As with the original, the last word may
//! hold bits at and above the length (`set_elements` writes whole words); no method but `as_raw_slice` shows them.

pub mod order {
    /// The order of bits in a word: lowest first. The stand-in has this order only.
    #[derive(Clone, Copy, Debug, PartialEq, Eq)]
    pub struct Lsb0;
}

pub mod vec {
    use crate::order::Lsb0;
    use std::fmt;
    use std::marker::PhantomData;
    use std::ops::{BitAnd, BitOr, BitOrAssign, Index, Not};

    const BITS: usize = usize::BITS as usize;

    /// A vector of bits.
    #[derive(Clone, Debug)]
    pub struct BitVec<T = usize, O = Lsb0> {
        words: Vec<usize>,
        len: usize,
        kind: PhantomData<(T, O)>,
    }

    impl<T, O> BitVec<T, O> {
        /// `len` bits, all equal to `bit`.
        pub fn repeat(bit: bool, len: usize) -> Self {
            let word = if bit { usize::MAX } else { 0 };
            BitVec { words: vec![word; len.div_ceil(BITS)], len, kind: PhantomData }
        }

        pub fn len(&self) -> usize {
            self.len
        }

        pub fn is_empty(&self) -> bool {
            self.len == 0
        }

        /// Writes one word into every element, whole.
        pub fn set_elements(&mut self, word: usize) {
            self.words.fill(word);
        }

        /// The words as they are, bits at and above the length included.
        pub fn as_raw_slice(&self) -> &[usize] {
            &self.words
        }

        pub fn set(&mut self, index: usize, value: bool) {
            assert!(index < self.len, "index {index} out of range {}", self.len);
            let bit = 1 << (index % BITS);
            if value {
                self.words[index / BITS] |= bit;
            } else {
                self.words[index / BITS] &= !bit;
            }
        }

        pub fn get(&self, index: usize) -> Option<&bool> {
            (index < self.len).then(|| &self[index])
        }

        pub fn any(&self) -> bool {
            (0..self.words.len()).any(|at| self.live(at) != 0)
        }

        pub fn count_ones(&self) -> usize {
            (0..self.words.len()).map(|at| self.live(at).count_ones() as usize).sum()
        }

        /// The places of the bits that are set, ascending.
        pub fn iter_ones(&self) -> IterOnes<'_, T, O> {
            let word = if self.words.is_empty() { 0 } else { self.live(0) };
            IterOnes { bits: self, at: 0, word }
        }

        /// A word without the bits at and above the length.
        fn live(&self, at: usize) -> usize {
            let used = self.len - at * BITS;
            if used >= BITS {
                self.words[at]
            } else {
                self.words[at] & ((1 << used) - 1)
            }
        }

        fn join(mut self, other: &Self, with: impl Fn(usize, usize) -> usize) -> Self {
            for (mine, theirs) in self.words.iter_mut().zip(&other.words) {
                *mine = with(*mine, *theirs);
            }
            self
        }
    }

    /// See [`BitVec::iter_ones`].
    pub struct IterOnes<'a, T, O> {
        bits: &'a BitVec<T, O>,
        at: usize,
        word: usize,
    }

    impl<T, O> Iterator for IterOnes<'_, T, O> {
        type Item = usize;

        fn next(&mut self) -> Option<usize> {
            while self.word == 0 {
                self.at += 1;
                if self.at >= self.bits.words.len() {
                    return None;
                }
                self.word = self.bits.live(self.at);
            }
            let bit = self.word.trailing_zeros() as usize;
            self.word &= self.word - 1;
            Some(self.at * BITS + bit)
        }
    }

    impl<T, O> Index<usize> for BitVec<T, O> {
        type Output = bool;

        fn index(&self, index: usize) -> &bool {
            assert!(index < self.len, "index {index} out of range {}", self.len);
            if self.words[index / BITS] >> (index % BITS) & 1 == 1 {
                &true
            } else {
                &false
            }
        }
    }

    impl<T, O> Not for BitVec<T, O> {
        type Output = Self;

        fn not(mut self) -> Self {
            self.words.iter_mut().for_each(|word| *word = !*word);
            self
        }
    }

    impl<T, O> BitAnd for BitVec<T, O> {
        type Output = Self;

        fn bitand(self, other: Self) -> Self {
            self.join(&other, |a, b| a & b)
        }
    }

    impl<T, O> BitAnd<&Self> for BitVec<T, O> {
        type Output = Self;

        fn bitand(self, other: &Self) -> Self {
            self.join(other, |a, b| a & b)
        }
    }

    impl<T, O> BitOr<&Self> for BitVec<T, O> {
        type Output = Self;

        fn bitor(self, other: &Self) -> Self {
            self.join(other, |a, b| a | b)
        }
    }

    impl<T, O> BitOrAssign for BitVec<T, O> {
        fn bitor_assign(&mut self, other: Self) {
            for (mine, theirs) in self.words.iter_mut().zip(&other.words) {
                *mine |= theirs;
            }
        }
    }

    impl<T, O> PartialEq for BitVec<T, O> {
        fn eq(&self, other: &Self) -> bool {
            self.len == other.len && (0..self.words.len()).all(|at| self.live(at) == other.live(at))
        }
    }

    impl<T, O> fmt::Display for BitVec<T, O> {
        fn fmt(&self, f: &mut fmt::Formatter<'_>) -> fmt::Result {
            f.debug_list().entries((0..self.len).map(|i| self[i] as u8)).finish()
        }
    }
}

/// `bitvec![usize, Lsb0; 0; n]`: n bits of one value.
#[macro_export]
macro_rules! bitvec {
    ($store:ty, $order:ty; $bit:expr; $len:expr) => {
        $crate::vec::BitVec::<$store, $order>::repeat($bit != 0, $len)
    };
}
