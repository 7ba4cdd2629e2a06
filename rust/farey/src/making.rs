//! Symbols from permutations, and of groups by name.
//!
//! The wide rule is the default: of the open sides it splits the one that has been
//! open longest, and the entries of vertices and generators stay small. The leftmost
//! rule splits the leftmost open side; entries grow, and most groups of an index over
//! a few hundred are refused with 16. Both make a symbol of the same group.

use crate::calls;
use crate::family::Family;
use crate::refusal::Refusal;
use crate::symbol::{work, Symbol};

impl Symbol {
    /// The symbol of the matrices that fix point 0, from the images of the points
    /// under S and R, by the wide rule; refusals 12 to 16. 16 is for groups that
    /// are deep in whatever order.
    ///
    /// ```
    /// use farey::Symbol;
    ///
    /// let gamma0_2 = Symbol::from_permutations(&[1, 0, 2], &[2, 0, 1])?;
    /// assert_eq!(gamma0_2.table(), [0, 1, 1, 1, 1, -2, 1]);
    /// assert_eq!(gamma0_2.tables().s, [1, 0, 2]);
    /// # Ok::<(), farey::Refusal>(())
    /// ```
    pub fn from_permutations(s: &[u32], r: &[u32]) -> Result<Symbol, Refusal> {
        Symbol::made(|out| calls::import_wide(s, r, &mut work(), out))
    }

    /// Another symbol of the same group, by the leftmost rule. Refusals 12 to 16.
    pub fn from_permutations_leftmost(s: &[u32], r: &[u32]) -> Result<Symbol, Refusal> {
        Symbol::made(|out| calls::import(s, r, &mut work(), out))
    }

    /// The same as `from_permutations`, with its rule in the name.
    pub fn from_permutations_wide(s: &[u32], r: &[u32]) -> Result<Symbol, Refusal> {
        Symbol::from_permutations(s, r)
    }

    /// A symbol of Γ0(N), the matrices (a b; c d) with c = 0 modulo N, for N from
    /// 1 to 1,000: the one that `from_permutations` makes of the group's tables.
    /// Refusals 20 and 21; 16 is met by no named group in the tests.
    ///
    /// ```
    /// use farey::Symbol;
    ///
    /// let gamma0_11 = Symbol::gamma0(11)?;
    /// assert_eq!(gamma0_11.figures().index, 12);
    /// assert_eq!(gamma0_11.figures().genus, Ok(1));
    /// assert!(gamma0_11.word([1, 0, 0, 1], [1, 0, 11, 1])?.is_some());
    /// let none = Symbol::gamma0(1_001).unwrap_err();
    /// assert_eq!((none.number, none.place), (20, 0));
    /// # Ok::<(), farey::Refusal>(())
    /// ```
    pub fn gamma0(n: u64) -> Result<Symbol, Refusal> {
        Symbol::named(Family::Gamma0, n)
    }

    /// A symbol of Γ1(N) with -1, the matrices (a b; c d) for which, modulo N,
    /// c = 0 and a and d are both 1 or both -1. By which rule, and what is
    /// refused: as `gamma0`.
    ///
    /// ```
    /// use farey::Symbol;
    ///
    /// let gamma1_7 = Symbol::gamma1(7)?;
    /// assert_eq!(gamma1_7.figures().index, 24);
    /// assert_eq!(gamma1_7.word([1, 0, 0, 1], [2, 1, 7, 4])?, None);
    /// # Ok::<(), farey::Refusal>(())
    /// ```
    pub fn gamma1(n: u64) -> Result<Symbol, Refusal> {
        Symbol::named(Family::Gamma1, n)
    }

    /// A symbol of Γ(N) with -1, the matrices that are the identity or its
    /// negative modulo N. By which rule, and what is refused: as `gamma0`.
    ///
    /// ```
    /// use farey::Symbol;
    ///
    /// let gamma_5 = Symbol::gamma(5)?;
    /// assert_eq!(gamma_5.figures().index, 60);
    /// assert_eq!(gamma_5.widths(), [5; 12]);
    /// # Ok::<(), farey::Refusal>(())
    /// ```
    pub fn gamma(n: u64) -> Result<Symbol, Refusal> {
        Symbol::named(Family::Gamma, n)
    }

    /// The symbol of a family's group, as `gamma0` says.
    pub fn named(family: Family, n: u64) -> Result<Symbol, Refusal> {
        Symbol::made(|out| calls::named_symbol_wide(family.number(), n, &mut work(), out))
    }

    /// The symbol of Γ0(N) by the leftmost rule. Refusals 20, 21 and 16: of the
    /// groups up to 1,000 this rule refuses 778, the first of them Γ0(120).
    ///
    /// ```
    /// use farey::Symbol;
    ///
    /// let (wide, leftmost) = (Symbol::gamma0(11)?, Symbol::gamma0_leftmost(11)?);
    /// assert!(wide != leftmost && wide.is_same(&leftmost));
    /// assert_eq!(Symbol::gamma0_leftmost(120).unwrap_err().number, 16);
    /// # Ok::<(), farey::Refusal>(())
    /// ```
    pub fn gamma0_leftmost(n: u64) -> Result<Symbol, Refusal> {
        Symbol::named_leftmost(Family::Gamma0, n)
    }

    /// The symbol of Γ1(N) by the leftmost rule; refusals as `gamma0_leftmost`.
    pub fn gamma1_leftmost(n: u64) -> Result<Symbol, Refusal> {
        Symbol::named_leftmost(Family::Gamma1, n)
    }

    /// The symbol of Γ(N) by the leftmost rule; refusals as `gamma0_leftmost`.
    pub fn gamma_leftmost(n: u64) -> Result<Symbol, Refusal> {
        Symbol::named_leftmost(Family::Gamma, n)
    }

    /// The symbol of a family's group by the leftmost rule.
    pub fn named_leftmost(family: Family, n: u64) -> Result<Symbol, Refusal> {
        Symbol::made(|out| calls::named_symbol(family.number(), n, &mut work(), out))
    }
}
