//! Several subgroups: whether one contains another, intersections and towers.

use crate::calls::{self, INTERSECTION, TOWER};
use crate::refusal::Refusal;
use crate::symbol::{certain, work, Symbol, Tables};

impl Symbol {
    /// Whether this subgroup contains the other one: every generator of the other
    /// is, up to sign, a word in those of this one.
    ///
    /// ```
    /// use farey::Symbol;
    ///
    /// let (gamma0_2, gamma0_6) = (Symbol::gamma0(2)?, Symbol::gamma0(6)?);
    /// assert!(gamma0_2.contains(&gamma0_6) && !gamma0_6.contains(&gamma0_2));
    /// // By the groups and not by their index: 3 divides 12.
    /// assert!(!gamma0_2.contains(&Symbol::gamma0(11)?));
    /// # Ok::<(), farey::Refusal>(())
    /// ```
    pub fn contains(&self, other: &Symbol) -> bool {
        certain(calls::contains(
            self.vertices(),
            self.table(),
            other.vertices(),
            other.table(),
            &mut work(),
        ))
    }

    /// The tables of S, R and T of the intersection of the two subgroups, numbered as
    /// those of a symbol: a matrix fixes point 0 precisely when it belongs to both.
    /// Refusal 24 where there are more than 3,066 points. `from_permutations`
    /// makes a symbol of the intersection from S and R.
    ///
    /// ```
    /// use farey::Symbol;
    ///
    /// let both = Symbol::gamma0(4)?.intersection(&Symbol::gamma0(6)?)?;
    /// assert_eq!(both, Symbol::gamma0(12)?.tables());
    /// let gamma0_12 = Symbol::from_permutations(&both.s, &both.r)?;
    /// assert!(gamma0_12.is_same(&Symbol::gamma0(12)?));
    /// # Ok::<(), farey::Refusal>(())
    /// ```
    pub fn intersection(&self, other: &Symbol) -> Result<Tables, Refusal> {
        let [mut s, mut r, mut t] = [(); 3].map(|()| vec![0; INTERSECTION]);
        let points = calls::intersection(
            self.vertices(),
            self.table(),
            other.vertices(),
            other.table(),
            &mut work(),
            &mut s,
            &mut r,
            &mut t,
        )?;
        for table in [&mut s, &mut r, &mut t] {
            table.truncate(points);
        }
        Ok(Tables { s, r, t })
    }
}

/// A tower: symbols, at most 64, each with the number of an entry listed before it
/// that should contain it, or `None`. It passes where each claim is true. Refusals 11
/// with place 64 for a 65th entry, 25 for an entry that names one not listed before it,
/// 26 for a claim that is false; the place of these two is the first entry at fault,
/// counted from 0.
///
/// ```
/// use farey::{tower, Symbol};
///
/// let [one, two, six] = [1, 2, 6].map(|n| Symbol::gamma0(n).expect("a small index"));
/// tower(&[(&one, None), (&two, Some(0)), (&six, Some(1))])?;
/// let refusal = tower(&[(&six, None), (&two, Some(0))]).unwrap_err();
/// assert_eq!((refusal.number, refusal.place), (26, 1));
/// # Ok::<(), farey::Refusal>(())
/// ```
pub fn tower(entries: &[(&Symbol, Option<usize>)]) -> Result<(), Refusal> {
    let mut table = Vec::new();
    // What stands behind a 65th entry isn't looked at.
    for (symbol, named) in entries.iter().take(TOWER) {
        // A number past 63 bits is as far from being listed as the largest of them.
        let named = named.map_or(-1, |named| i64::try_from(named).unwrap_or(i64::MAX));
        table.extend([named, symbol.vertices() as i64]);
        table.extend_from_slice(symbol.table());
    }
    calls::tower(entries.len(), &table, &mut work())
}
