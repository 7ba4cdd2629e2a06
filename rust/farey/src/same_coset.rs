//! Whether two matrices share a right coset, yes or no without a word.

use crate::calls;
use crate::refusal::Refusal;
use crate::symbol::{certain, work, Symbol};

impl Symbol {
    /// Whether a and b share a right coset of the group: whether `word` would find
    /// one. Long runs of T cost no more than short ones.
    ///
    /// ```
    /// use farey::Symbol;
    ///
    /// let gamma0_2 = Symbol::new(&[(0, 1), (1, 1)], &[1, -2, 1])?;
    /// let one = [1, 0, 0, 1];
    /// assert!(gamma0_2.same_coset(&one, &[1, 123_456, 0, 1])?);
    /// assert!(!gamma0_2.same_coset(&one, &[1, 0, 123_457, 1])?);
    /// # Ok::<(), farey::Refusal>(())
    /// ```
    pub fn same_coset(&self, a: &[i64; 4], b: &[i64; 4]) -> Result<bool, Refusal> {
        calls::same_coset(self.vertices(), self.table(), a, b, &mut work())
    }

    /// The same for many pairs (a, b), in their order, over tables that are built
    /// once. A pair with refusal 8 or 9 has it for its answer.
    pub fn same_cosets(&self, pairs: &[([i64; 4], [i64; 4])]) -> Vec<Result<bool, Refusal>> {
        let entries: Vec<i64> = pairs.iter().flat_map(|&(a, b)| [a, b]).flatten().collect();
        let mut lines = vec![0; 2 * pairs.len()];
        certain(calls::same_cosets(
            self.vertices(),
            self.table(),
            &entries,
            &mut work(),
            &mut lines,
        ));
        let answer = |line: &[i64]| match line[0] {
            0 => Ok(line[1] == 1),
            number => Err(Refusal {
                number: number as u64,
                place: line[1] as usize,
            }),
        };
        lines.chunks_exact(2).map(answer).collect()
    }
}
