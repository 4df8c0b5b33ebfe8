//! Slices to lend to a call: full of junk, and the middle of a wider row whose ends must stay as they are.

use crate::random::Random;

/// An entry of a lent slice; it is compared by its bits.
pub trait Entry: Copy {
    fn from_bits(bits: u64) -> Self;
    fn bits(self) -> u64;
}

impl Entry for u8 {
    fn from_bits(bits: u64) -> Self {
        bits as u8
    }
    fn bits(self) -> u64 {
        self.into()
    }
}

impl Entry for u32 {
    fn from_bits(bits: u64) -> Self {
        bits as u32
    }
    fn bits(self) -> u64 {
        self.into()
    }
}

impl Entry for u64 {
    fn from_bits(bits: u64) -> Self {
        bits
    }
    fn bits(self) -> u64 {
        self
    }
}

impl Entry for f64 {
    fn from_bits(bits: u64) -> Self {
        f64::from_bits(bits)
    }
    fn bits(self) -> u64 {
        self.to_bits()
    }
}

/// Whether two rows have the same bits.
pub fn same<T: Entry>(one: &[T], other: &[T]) -> bool {
    one.len() == other.len() && one.iter().zip(other).all(|(a, b)| a.bits() == b.bits())
}

/// The entries on either side of a lent slice. It isn't a multiple of four, so that a lent row of bytes isn't aligned.
const MARGIN: usize = 7;

#[derive(Clone)]
pub struct Lent<T>(Vec<T>);

impl<T: Entry> Lent<T> {
    pub fn new(len: usize, random: &mut Random) -> Self {
        Self((0..len + 2 * MARGIN).map(|_| T::from_bits(random.next())).collect())
    }

    /// The slice to lend.
    pub fn part(&mut self) -> &mut [T] {
        let end = self.0.len() - MARGIN;
        &mut self.0[MARGIN..end]
    }

    pub fn entries(&self) -> &[T] {
        &self.0[MARGIN..self.0.len() - MARGIN]
    }

    /// Whether slice and margins have the same bits.
    pub fn same(&self, other: &Self) -> bool {
        same(&self.0, &other.0)
    }
}
