//! Cycle notation: the index, then S and R as disjoint cycles over points from 1, as
//! other algebra systems write them.
//!
//! `read` and `write` are the exported functions on lent slices, safe for the reasons
//! that `calls` gives; `read_cycles` and `write_cycles` lend these spaces themselves.

use crate::calls::{exported, NAMED};
use crate::refusal::Refusal;
use crate::symbol::{certain, Symbol};

/// Enough for each of the two tables of every text that is read: 3,066.
pub const POINTS: usize = NAMED;

exported! {
    /// The tables of S and R in a text to the fronts of s and r: the index.
    read = farey_read_cycles(text: &[u8], s: &mut [u32], r: &mut [u32]) -> usize;

    /// The text of S and R to the front of out: its length.
    write = farey_write_cycles(s: &[u32], r: &[u32], out: &mut [u8]) -> usize;
}

/// The images of the points 0, 1, 2, .. under S, and those under R, from a text in
/// cycle notation, whose points begin at 1. Refusals 27, with the offset of the first
/// piece that no ending could make right, or the text's length where it stops short;
/// 12 for a written index that is none; 14 and 15.
///
/// ```
/// let gamma0_2 = (vec![1, 0, 2], vec![2, 0, 1]);
/// assert_eq!(farey::read_cycles(b"3 (1,2) (1,3,2)")?, gamma0_2);
/// assert_eq!(farey::read_cycles(b"003(3) (2,1); (3,2,1)")?, gamma0_2);
/// let short = farey::read_cycles(b"3 (1,2) (1,3").unwrap_err();
/// assert_eq!((short.number, short.place), (27, 12));
/// # Ok::<(), farey::Refusal>(())
/// ```
pub fn read_cycles(text: &[u8]) -> Result<(Vec<u32>, Vec<u32>), Refusal> {
    let (mut s, mut r) = (vec![0; POINTS], vec![0; POINTS]);
    let index = read(text, &mut s, &mut r)?;
    s.truncate(index);
    r.truncate(index);
    Ok((s, r))
}

/// The text of S and R in cycle notation, which `read_cycles` reads as these tables.
/// Refusals 12 to 15.
///
/// ```
/// assert_eq!(farey::write_cycles(&[1, 0, 2], &[2, 0, 1])?, "3 (1,2);(1,3,2)");
/// assert_eq!(farey::write_cycles(&[0], &[0])?, "1 ();()");
/// # Ok::<(), farey::Refusal>(())
/// ```
pub fn write_cycles(s: &[u32], r: &[u32]) -> Result<String, Refusal> {
    // No space at all: the refusal has the length that is needed, or comes before.
    let needed = match write(s, r, &mut []) {
        Err(refusal) if refusal.number == 11 => refusal.place,
        answer => answer?,
    };
    let mut out = vec![0; needed];
    write(s, r, &mut out)?;
    Ok(String::from_utf8(out).expect("digits, blanks, commas, parentheses and a semicolon"))
}

impl Symbol {
    /// The symbol of the matrices that fix point 1 of a text in cycle notation, by the
    /// wide rule: that of `from_permutations` for the tables of `read_cycles`.
    /// Refusals 27, 12, 14 to 16.
    ///
    /// ```
    /// use farey::Symbol;
    ///
    /// let gamma0_2 = Symbol::from_cycles(b"3 (1,2) (1,3,2)")?;
    /// assert_eq!(gamma0_2.table(), [0, 1, 1, 1, 1, -2, 1]);
    /// assert_eq!(gamma0_2.cycles()?, "3 (1,2);(1,3,2)");
    /// # Ok::<(), farey::Refusal>(())
    /// ```
    pub fn from_cycles(text: &[u8]) -> Result<Symbol, Refusal> {
        let (s, r) = read_cycles(text)?;
        Symbol::from_permutations(&s, &r)
    }

    /// The permutations S and R of the right cosets in cycle notation; refusal 12
    /// where the index is over 3,066.
    pub fn cycles(&self) -> Result<String, Refusal> {
        let tables = self.tables();
        match write_cycles(&tables.s, &tables.r) {
            Err(refusal) if refusal.number == 12 => Err(refusal),
            answer => Ok(certain(answer)),
        }
    }
}
