//! One safe function for each exported one, on lent slices. (Those of cycle notation
//! are in `cycles`.)
//!
//! Each function answers with its count, or with a refusal, and leaves what
//! `include/farey.h` says.
//!
#![doc = include_str!("../CALLS.md")]

use crate::refusal::Refusal;

/// The length of the work space.
pub const WORK: usize = 32_768;
/// Enough for every symbol's table.
pub const TABLE: usize = 3_070;
/// Enough for every symbol's generators.
pub const GENERATORS: usize = 5_120;
/// Enough for every symbol's widths, and for each table of its cosets: images,
/// cusps and steps.
pub const COSETS: usize = 4_090;
/// Enough for the sides of every symbol, four floats each.
pub const DRAWING: usize = 4_096;
/// The pairs of a sheet, at most: eight entries and four numbers of lines each.
pub const SHEET: usize = 256;
/// Enough for the table of S, and of R, of every named group.
pub const NAMED: usize = 3_066;
/// Enough for each table of every intersection.
pub const INTERSECTION: usize = 3_066;
/// The entries of a tower, at most.
pub const TOWER: usize = 64;

/// What stands at `place` before a call. No count and no place is as large, so
/// it would show if the engine didn't write there.
pub(crate) const UNWRITTEN: usize = usize::MAX;

/// What a call gives of its count.
pub(crate) trait Given {
    fn from_count(count: usize) -> Self;
}

impl Given for usize {
    fn from_count(count: usize) -> usize {
        count
    }
}

/// Yes is 1, and no is 0.
impl Given for bool {
    fn from_count(count: usize) -> bool {
        count == 1
    }
}

/// The count is 0.
impl Given for () {
    fn from_count(_: usize) {}
}

/// A returned number with what stands at `place`.
pub(crate) fn answer<A: Given>(number: u64, place: usize) -> Result<A, Refusal> {
    match number {
        0 => Ok(A::from_count(place)),
        _ => Err(Refusal { number, place }),
    }
}

/// Makes the function `name` of each line `name = function(..) -> ..;`, which
/// declares the engine's function as include/farey.h does and calls it. A slice is
/// a pointer and its length there, an array or one number that is lent a pointer.
/// `place` comes last and isn't written down.
macro_rules! exported {
    ($($(#[$about:meta])* $name:ident = $function:ident($($given:tt)*) -> $gives:ty;)*) => {
        $(exported!(@with [$(#[$about])* $name $function $gives] [] [] [] $($given)*,);)*
    };
    (@with $call:tt [$($safe:tt)*] [$($c:tt)*] [$($passed:tt)*]
     $x:ident: &[$t:ident; $n:literal], $($more:tt)*) => {
        exported!(@with $call [$($safe)* $x: &[$t; $n],] [$($c)* $x: *const $t,]
            [$($passed)* $x.as_ptr(),] $($more)*);
    };
    (@with $call:tt [$($safe:tt)*] [$($c:tt)*] [$($passed:tt)*]
     $x:ident: &mut [$t:ident; $n:literal], $($more:tt)*) => {
        exported!(@with $call [$($safe)* $x: &mut [$t; $n],] [$($c)* $x: *mut $t,]
            [$($passed)* $x.as_mut_ptr(),] $($more)*);
    };
    (@with $call:tt [$($safe:tt)*] [$($c:tt)*] [$($passed:tt)*]
     $x:ident: &[$t:ident], $($more:tt)*) => {
        exported!(@with $call [$($safe)* $x: &[$t],] [$($c)* $x: *const $t, _: usize,]
            [$($passed)* $x.as_ptr(), $x.len(),] $($more)*);
    };
    (@with $call:tt [$($safe:tt)*] [$($c:tt)*] [$($passed:tt)*]
     $x:ident: &mut [$t:ident], $($more:tt)*) => {
        exported!(@with $call [$($safe)* $x: &mut [$t],] [$($c)* $x: *mut $t, _: usize,]
            [$($passed)* $x.as_mut_ptr(), $x.len(),] $($more)*);
    };
    (@with $call:tt [$($safe:tt)*] [$($c:tt)*] [$($passed:tt)*]
     $x:ident: &mut $t:ident, $($more:tt)*) => {
        exported!(@with $call [$($safe)* $x: &mut $t,] [$($c)* $x: *mut $t,]
            [$($passed)* $x,] $($more)*);
    };
    (@with $call:tt [$($safe:tt)*] [$($c:tt)*] [$($passed:tt)*]
     $x:ident: $t:ident, $($more:tt)*) => {
        exported!(@with $call [$($safe)* $x: $t,] [$($c)* $x: $t,] [$($passed)* $x,] $($more)*);
    };
    (@with [$(#[$about:meta])* $name:ident $function:ident $gives:ty]
     [$($safe:tt)*] [$($c:tt)*] [$($passed:tt)*]) => {
        $(#[$about])*
        #[allow(clippy::too_many_arguments)]
        pub fn $name($($safe)*) -> Result<$gives, $crate::Refusal> {
            extern "C" {
                fn $function($($c)* place: *mut usize) -> u64;
            }
            let mut place = $crate::calls::UNWRITTEN;
            // SAFETY: the types keep the rules of include/farey.h that C can't check. A
            // slice's pointer is aligned, isn't null and is good for the slice's length,
            // also where that is 0; what is lent for writing overlaps nothing else; and
            // nobody else writes during the call.
            let number = unsafe { $function($($passed)* &mut place) };
            $crate::calls::answer(number, place)
        }
    };
}
pub(crate) use exported;

/// The version of the engine that is linked: 10,000 times the major number, 100
/// times the minor one and the patch.
pub fn version() -> u64 {
    extern "C" {
        fn farey_version() -> u64;
    }
    // SAFETY: the function takes nothing and touches no memory.
    unsafe { farey_version() }
}

exported! {
    /// Whether t holds a symbol with v vertices.
    check = farey_check(v: usize, t: &[i64]) -> ();

    /// The generators to the front of out, five numbers each: how many.
    generators = farey_generators(v: usize, t: &[i64], work: &mut [u16], out: &mut [i64]) -> usize;

    /// Index, e2, e3, cusps, then number and value of the genus, then of the level.
    figures = farey_figures(v: usize, t: &[i64], work: &mut [u16], out: &mut [u64; 8]) -> ();

    /// The widths of the cusps to the front of out: how many.
    widths = farey_widths(v: usize, t: &[i64], work: &mut [u16], out: &mut [u32]) -> usize;

    /// The tables of S, R and T to the fronts of s, r and u: the index.
    tables = farey_tables(
        v: usize, t: &[i64], work: &mut [u16], s: &mut [u32], r: &mut [u32], u: &mut [u32]
    ) -> usize;

    /// The cusps of the cosets, and their steps of T from the cusp's smallest coset,
    /// to the fronts of cusps and steps: the index.
    cusps = farey_cusps(
        v: usize, t: &[i64], work: &mut [u16], cusps: &mut [u32], steps: &mut [u32]
    ) -> usize;

    /// The table of a symbol for S and R to the front of out: its vertices. The
    /// leftmost open side is split.
    import = farey_import(s: &[u32], r: &[u32], work: &mut [u16], out: &mut [i64]) -> usize;

    /// The same by the wide rule: the side that has been open longest is split, so
    /// that entries stay small.
    import_wide = farey_import_wide(
        s: &[u32], r: &[u32], work: &mut [u16], out: &mut [i64]
    ) -> usize;

    /// The length of the table that each of these two writes for S and R, by which out
    /// can be booked.
    import_length = farey_import_length(s: &[u32], r: &[u32]) -> usize;

    /// A word that takes a to b, up to sign, in out from `start` on: its letters.
    /// `signed_query` tells whether to b or to -b.
    query = farey_query(
        v: usize, t: &[i64], a: &[i64; 4], b: &[i64; 4], work: &mut [u16], out: &mut [i16],
        start: usize
    ) -> usize;

    /// The word of `query`, and 1 or -1 at `sign`: the word's product times a is that
    /// times b. A refusal leaves `sign` as it was.
    signed_query = farey_signed_query(
        v: usize, t: &[i64], a: &[i64; 4], b: &[i64; 4], work: &mut [u16], out: &mut [i16],
        start: usize, sign: &mut i64
    ) -> usize;

    /// The answers for the pairs in p, eight entries each: four numbers a pair to the
    /// front of lines, and the words one behind another to the front of out. Answers
    /// with the number of pairs.
    sheet = farey_sheet(
        v: usize, t: &[i64], p: &[i64], work: &mut [u16], lines: &mut [i64], out: &mut [i16]
    ) -> usize;

    /// Whether a and b share a right coset: yes exactly where `query` would find a word,
    /// given enough space, and no where it gives 10.
    same_coset = farey_same_coset(
        v: usize, t: &[i64], a: &[i64; 4], b: &[i64; 4], work: &mut [u16]
    ) -> bool;

    /// The same for the pairs in p, eight entries each: two numbers a pair to the front
    /// of lines, 0 and 1 for yes, 0 and 0 for no, or the refusal and its place. Answers
    /// with the number of pairs.
    same_cosets = farey_same_cosets(
        v: usize, t: &[i64], p: &[i64], work: &mut [u16], lines: &mut [i64]
    ) -> usize;

    /// A word whose value is m, up to sign, in out from `start` on: its letters. The
    /// entries of m are up to 10^18 in size.
    matrix_word = farey_matrix_word(
        v: usize, t: &[i64], m: &[i64; 4], work: &mut [u16], out: &mut [i16], start: usize
    ) -> usize;

    /// The word of `matrix_word`, and 1 or -1 at `sign`: the word's value is that times
    /// m. A refusal leaves `sign` as it was.
    signed_matrix_word = farey_signed_matrix_word(
        v: usize, t: &[i64], m: &[i64; 4], work: &mut [u16], out: &mut [i16], start: usize,
        sign: &mut i64
    ) -> usize;

    /// Whether m is in the group: yes exactly where `matrix_word` would find a word,
    /// given enough space, and no where it gives 10.
    contains_matrix = farey_contains_matrix(
        v: usize, t: &[i64], m: &[i64; 4], work: &mut [u16]
    ) -> bool;

    /// Whether t and u hold symbols of the same subgroup.
    same = farey_same(v: usize, t: &[i64], m: usize, u: &[i64], work: &mut [u16]) -> bool;

    /// The symbol with the second sides of the labels x and y exchanged to the front of
    /// out: the number of its vertices.
    exchange = farey_exchange(v: usize, t: &[i64], x: i64, y: i64, out: &mut [i64]) -> usize;

    /// The figures of the symbol that `exchange` would make to out, and the widths of its
    /// cusps to the front of widths: how many.
    preview = farey_preview(
        v: usize, t: &[i64], x: i64, y: i64, work: &mut [u16], widths: &mut [u32],
        out: &mut [u64; 8]
    ) -> usize;

    /// The sides for a drawing to the front of out, four floats each, and the box
    /// that holds them, left, right, bottom and top, to bounds: the number of sides.
    drawing = farey_drawing(v: usize, t: &[i64], out: &mut [f64], bounds: &mut [f64; 4]) -> usize;

    /// The tables of S and R of a named group to the fronts of s and r: the index.
    /// `Family::number` gives the number of a family.
    named_tables = farey_named_tables(
        family: u64, n: u64, work: &mut [u16], s: &mut [u32], r: &mut [u32]
    ) -> usize;

    /// The table of the symbol that `import` makes of these tables to the front of
    /// out: its vertices.
    named_symbol = farey_named_symbol(
        family: u64, n: u64, work: &mut [u16], out: &mut [i64]
    ) -> usize;

    /// The same by the wide rule, as `import_wide`.
    named_symbol_wide = farey_named_symbol_wide(
        family: u64, n: u64, work: &mut [u16], out: &mut [i64]
    ) -> usize;

    /// A word that takes a to b, up to sign, in the generators of the symbol of
    /// `named_symbol`, in out from `start` on: its letters.
    named_query = farey_named_query(
        family: u64, n: u64, a: &[i64; 4], b: &[i64; 4], work: &mut [u16], out: &mut [i16],
        start: usize
    ) -> usize;

    /// The same in the generators of the symbol of `named_symbol_wide`.
    named_query_wide = farey_named_query_wide(
        family: u64, n: u64, a: &[i64; 4], b: &[i64; 4], work: &mut [u16], out: &mut [i16],
        start: usize
    ) -> usize;

    /// The word of `named_query`, and its sign at `sign`, as `signed_query` has it.
    named_signed_query = farey_named_signed_query(
        family: u64, n: u64, a: &[i64; 4], b: &[i64; 4], work: &mut [u16], out: &mut [i16],
        start: usize, sign: &mut i64
    ) -> usize;

    /// The word of `named_query_wide`, and its sign at `sign`.
    named_signed_query_wide = farey_named_signed_query_wide(
        family: u64, n: u64, a: &[i64; 4], b: &[i64; 4], work: &mut [u16], out: &mut [i16],
        start: usize, sign: &mut i64
    ) -> usize;

    /// Whether the subgroup of the symbol in t contains that of the symbol in u.
    contains = farey_contains(v: usize, t: &[i64], m: usize, u: &[i64], work: &mut [u16]) -> bool;

    /// The tables of S, R and T of the intersection of the subgroups of t and u to the
    /// fronts of s, r and k: the number of points.
    intersection = farey_intersection(
        v: usize, t: &[i64], m: usize, u: &[i64], work: &mut [u16], s: &mut [u32], r: &mut [u32],
        k: &mut [u32]
    ) -> usize;

    /// Whether each of `count` entries in t is contained in the one that it names: for
    /// each the named entry or -1, then v, then the symbol's table.
    tower = farey_tower(count: usize, t: &[i64], work: &mut [u16]) -> ();
}

#[cfg(test)]
mod tests {
    // The calls above drop the count of these three.
    super::exported! {
        check = farey_check(v: usize, t: &[i64]) -> usize;
        figures = farey_figures(v: usize, t: &[i64], work: &mut [u16], out: &mut [u64; 8]) -> usize;
        tower = farey_tower(count: usize, t: &[i64], work: &mut [u16]) -> usize;
    }

    #[test]
    fn counts_that_are_0() {
        let (v, t) = (2, [0, 1, 1, 1, 1, -2, 1]);
        let (mut work, mut out) = (vec![7; super::WORK], [0; 8]);
        assert_eq!(check(v, &t), Ok(0));
        assert_eq!(figures(v, &t, &mut work, &mut out), Ok(0));
        let entries = [-1, 1, 0, 1, -2, -3, 0, 2, 0, 1, 1, 1, 1, -2, 1];
        for count in [0, 2] {
            assert_eq!(tower(count, &entries, &mut work), Ok(0));
        }
    }
}
