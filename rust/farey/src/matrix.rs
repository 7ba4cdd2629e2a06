//! One matrix with entries up to 10^18 in size: its word, and whether it is in the group.

use crate::calls;
use crate::refusal::Refusal;
use crate::symbol::{work, Symbol, Word};

impl Symbol {
    /// A word in the generators whose value is m or -m, with the sign that tells which,
    /// or `None`: m isn't in the group. It is the word of `word` from the identity to m.
    /// Refusals 28 (an entry over 10^18 in size), 9, and 11, with the word's length for
    /// its place, where it has more than `most` letters: none is then written.
    ///
    /// ```
    /// use farey::{Refusal, Symbol};
    ///
    /// let gamma0_2 = Symbol::new(&[(0, 1), (1, 1)], &[1, -2, 1])?;
    /// let power = |n| [1, n, 0, 1];
    /// let word = gamma0_2.matrix_word(&power(3), 1000)?.unwrap();
    /// assert_eq!((word.sign, word.letters), (1, vec![1, 1, 1]));
    /// let far = gamma0_2.matrix_word(&power(1_000_000_000_000_000_000), 1000);
    /// assert_eq!(far, Err(Refusal { number: 11, place: 1_000_000_000_000_000_000 }));
    /// # Ok::<(), Refusal>(())
    /// ```
    pub fn matrix_word(&self, m: &[i64; 4], most: usize) -> Result<Option<Word>, Refusal> {
        let (mut work, mut sign) = (work(), 0);
        let mut ask = |out: &mut [i16]| {
            calls::signed_matrix_word(self.vertices(), self.table(), m, &mut work, out, 0, &mut sign)
        };
        // The first call asks for the length alone, the second for the word.
        let letters = match ask(&mut []) {
            Ok(_) => Vec::new(),
            Err(Refusal { number: 10, .. }) => return Ok(None),
            Err(Refusal { number: 11, place }) if place <= most => {
                let mut out = vec![0; place];
                ask(&mut out)?;
                out
            }
            Err(refusal) => return Err(refusal),
        };
        Ok(Some(Word { sign, letters }))
    }

    /// Whether m, up to sign, is in the group. Refusals 28 and 9.
    ///
    /// ```
    /// use farey::Symbol;
    ///
    /// let gamma0_2 = Symbol::new(&[(0, 1), (1, 1)], &[1, -2, 1])?;
    /// assert!(gamma0_2.contains_matrix(&[1, 0, 1_000_000_000_000_000_000, 1])?);
    /// assert!(!gamma0_2.contains_matrix(&[1, 0, 999_999_999_999_999_999, 1])?);
    /// # Ok::<(), farey::Refusal>(())
    /// ```
    pub fn contains_matrix(&self, m: &[i64; 4]) -> Result<bool, Refusal> {
        calls::contains_matrix(self.vertices(), self.table(), m, &mut work())
    }
}
