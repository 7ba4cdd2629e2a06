//! The families of congruence groups that are known by name.

use crate::calls::{self, NAMED, WORK};
use crate::refusal::Refusal;

/// A family of groups. With an N from 1 to 1,000 it names the matrices
/// (a b; c d) of determinant 1 that meet a condition modulo N.
#[derive(Clone, Copy, Debug, PartialEq, Eq)]
pub enum Family {
    /// Γ0(N): c is 0.
    Gamma0,
    /// Γ1(N): c is 0, and a and d are both 1 or both -1.
    Gamma1,
    /// Γ(N): the matrix is the identity or its negative.
    Gamma,
}

impl Family {
    /// The family's number in the calls of the library.
    pub fn number(self) -> u64 {
        match self {
            Family::Gamma0 => 0,
            Family::Gamma1 => 1,
            Family::Gamma => 2,
        }
    }

    /// For each right coset of the group its image under S, and that under R,
    /// numbered as a symbol's own tables. A matrix fixes point 0 precisely when
    /// it meets the condition. Refusals 20 and 21.
    ///
    /// ```
    /// use farey::Family;
    ///
    /// let (s, r) = Family::Gamma0.tables(2)?;
    /// assert_eq!((s, r), (vec![1, 0, 2], vec![2, 0, 1]));
    /// let large = Family::Gamma.tables(19).unwrap_err();
    /// assert_eq!(large.to_string(), "refused 21 0: the index of this group is over 3,066");
    /// # Ok::<(), farey::Refusal>(())
    /// ```
    pub fn tables(self, n: u64) -> Result<(Vec<u32>, Vec<u32>), Refusal> {
        let (mut work, mut s, mut r) = (vec![0; WORK], vec![0; NAMED], vec![0; NAMED]);
        let index = calls::named_tables(self.number(), n, &mut work, &mut s, &mut r)?;
        s.truncate(index);
        r.truncate(index);
        Ok((s, r))
    }
}
