//! Lists to lend, filled with marks and with more marks on both sides, so that every word that is touched is seen.

use crate::random::Random;

const SIDE: usize = 16;

/// A lent list of words or bytes inside a longer one.
#[derive(Clone, Debug, PartialEq, Eq)]
pub struct Lent<T> {
    whole: Vec<T>,
    length: usize,
}

impl<T: Copy> Lent<T> {
    fn filled(length: usize, mark: impl FnMut(usize) -> T) -> Lent<T> {
        Lent { whole: (0..SIDE + length + SIDE).map(mark).collect(), length }
    }

    /// The list itself, without its sides.
    pub fn list(&mut self) -> &mut [T] {
        &mut self.whole[SIDE..SIDE + self.length]
    }
}

impl<T: Copy + PartialEq + std::fmt::Debug> Lent<T> {
    /// Where this list, or a side of it, differs from another first: the index (negative on the left side), and both values.
    pub fn first_difference(&self, other: &Lent<T>) -> Option<(isize, T, T)> {
        let at = (0..self.whole.len()).find(|&k| self.whole[k] != other.whole[k])?;
        Some((at as isize - SIDE as isize, self.whole[at], other.whole[at]))
    }
}

/// Words with random marks; once in four all ones or all zeros, as a caller may lend them.
pub fn words(random: &mut Random, length: usize) -> Lent<u32> {
    match random.below(8) {
        0 => Lent::filled(length, |_| 0),
        1 => Lent::filled(length, |_| u32::MAX),
        _ => {
            let seed = random.next() as u32 | 1;
            Lent::filled(length, |k| (k as u32).wrapping_add(77).wrapping_mul(seed).rotate_left(9))
        }
    }
}

/// Bytes with random marks.
pub fn bytes(random: &mut Random, length: usize) -> Lent<u8> {
    let seed = random.next() as usize | 1;
    Lent::filled(length, |k| ((k + 77).wrapping_mul(seed) >> 3) as u8)
}
