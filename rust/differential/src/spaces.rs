//! Spaces as they are lent: random numbers in them and around them before the
//! call, and every one of these looked at after it.

use std::fmt::{self, Debug, Formatter};

use reference::random::Rng;
use reference::Refusal;

/// The length of the work space, as `include/farey.h` names it.
pub const WORK: usize = 32_768;

/// The numbers that stand before and behind a lent part, at most.
const MARGIN: usize = 8;

/// A number of a lent space.
pub trait Number: Copy + Debug + PartialEq {
    /// The lowest bits as such a number.
    fn from_bits(bits: u64) -> Self;
}

macro_rules! numbers {
    ($($number:ty)*) => {
        $(impl Number for $number {
            fn from_bits(bits: u64) -> $number {
                bits as $number
            }
        })*
    };
}

numbers!(u8 i16 u16 u32 i64 u64);

/// A float that is compared by its bits, so that no two that differ pass for
/// equal, and none that isn't a number differs from itself.
#[derive(Clone, Copy)]
#[repr(transparent)]
pub struct Float(pub f64);

impl PartialEq for Float {
    fn eq(&self, other: &Float) -> bool {
        self.0.to_bits() == other.0.to_bits()
    }
}

impl Debug for Float {
    fn fmt(&self, f: &mut Formatter<'_>) -> fmt::Result {
        write!(f, "{:e} ({:#018x})", self.0, self.0.to_bits())
    }
}

impl Number for Float {
    fn from_bits(bits: u64) -> Float {
        Float(f64::from_bits(bits))
    }
}

/// Random numbers of one of several kinds; small ones could pass for points or
/// marks that an earlier call left behind.
fn garbage<T: Number>(rng: &mut Rng, count: usize) -> Vec<T> {
    match rng.below(10) {
        0 => (0..count).map(|_| T::from_bits(rng.bits() % 5)).collect(),
        1 => vec![T::from_bits(rng.bits()); count],
        2 => vec![T::from_bits(u64::MAX); count],
        _ => (0..count).map(|_| T::from_bits(rng.bits())).collect(),
    }
}

/// A lent space between two margins that are not lent.
#[derive(Clone)]
pub struct Space<T> {
    /// What stood there before the call, margins and all.
    before: Vec<T>,
    now: Vec<T>,
    /// Where the lent part begins, and its length.
    front: usize,
    len: usize,
}

impl<T: Number> Space<T> {
    /// A space of this length, full of random numbers.
    pub fn of_length(rng: &mut Rng, len: usize) -> Space<T> {
        let front = 1 + rng.below(MARGIN);
        let behind = 1 + rng.below(MARGIN);
        let before = garbage(rng, front + len + behind);
        Space {
            now: before.clone(),
            before,
            front,
            len,
        }
    }

    /// A space that is lent for reading: these numbers, and random margins.
    pub fn holding(rng: &mut Rng, numbers: &[T]) -> Space<T> {
        let mut space = Space::of_length(rng, numbers.len());
        space.before[space.front..][..space.len].copy_from_slice(numbers);
        space.now.clone_from(&space.before);
        space
    }

    /// A result space where `needed` numbers are needed: none, too short,
    /// just right or longer.
    pub fn around(rng: &mut Rng, needed: usize) -> Space<T> {
        let len = around(rng, needed);
        Space::of_length(rng, len)
    }

    pub fn length(&self) -> usize {
        self.len
    }

    /// The lent part, for reading.
    pub fn read(&self) -> &[T] {
        &self.now[self.front..][..self.len]
    }

    /// The lent part, for writing.
    pub fn write(&mut self) -> &mut [T] {
        &mut self.now[self.front..][..self.len]
    }

    /// Whether the same stands in both now, margins and all.
    pub fn same(&self, other: &Space<T>) -> bool {
        self.now == other.now
    }

    /// Refusal 11 if the space is shorter than that.
    pub fn enough(&self, needed: usize) -> Result<(), Refusal> {
        if self.len < needed {
            return Err(Refusal::new(11, needed));
        }
        Ok(())
    }

    /// The first number that isn't what it must be: that of `part` where it
    /// stands, from `at` on, and elsewhere what was there before the call.
    pub fn difference(&self, at: usize, part: &[T]) -> Option<String> {
        let mut wanted = self.before.clone();
        if !part.is_empty() {
            wanted[self.front + at..][..part.len()].copy_from_slice(part);
        }
        let i = (0..wanted.len()).find(|&i| wanted[i] != self.now[i])?;
        Some(format!(
            "number {} of {} is {:?}, expected {:?}; it was {:?}",
            i as isize - self.front as isize,
            self.len,
            self.now[i],
            wanted[i],
            self.before[i]
        ))
    }
}

/// A length around the one that is needed.
pub fn around(rng: &mut Rng, needed: usize) -> usize {
    match rng.below(12) {
        0 => 0,
        1 | 2 => needed.saturating_sub(1),
        3 => rng.below(needed + 1),
        4 => needed + 1,
        5 => needed + rng.below(10_000),
        6 | 7 => needed + rng.below(100),
        _ => needed,
    }
}

/// A work space, mostly long enough.
pub fn work(rng: &mut Rng) -> Space<u16> {
    let len = match rng.below(24) {
        0 => 0,
        1 => WORK - 1,
        2 => rng.below(WORK),
        3 => WORK + 1,
        4 => WORK + rng.below(WORK),
        _ => WORK,
    };
    Space::of_length(rng, len)
}

#[cfg(test)]
mod tests {
    use super::*;

    fn space() -> Space<u32> {
        Space::of_length(&mut Rng::new(1), 5)
    }

    #[test]
    fn untouched() {
        assert_eq!(space().difference(0, &[]), None);
        assert_eq!(space().difference(usize::MAX, &[]), None);
    }

    #[test]
    fn every_number_is_looked_at() {
        let len = space().now.len();
        for i in 0..len {
            let mut space = space();
            space.now[i] = !space.now[i];
            let place = i as isize - space.front as isize;
            let said = space.difference(0, &[]).expect("a number has changed");
            assert!(said.starts_with(&format!("number {place} of 5 is ")));
        }
    }

    #[test]
    fn the_part_must_stand_where_it_belongs() {
        let mut space = space();
        space.write()[2..4].copy_from_slice(&[7, 8]);
        assert_eq!(space.difference(2, &[7, 8]), None);
        assert!(space.difference(1, &[7, 8]).is_some());
        assert!(space.difference(2, &[7]).is_some());
        assert!(space.difference(2, &[7, 9]).is_some());
        assert!(space.difference(0, &[]).is_some());
    }
}
