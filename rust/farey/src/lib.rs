//! Finite index subgroups of PSL2(Z) by their Farey symbols.
//!
//! The answers are those of the proved engine, `libengine.a`. What each call
//! promises stands in `include/farey.h` in words, and in `crates/engine` as the
//! contract that is proved. This crate adds nothing to the answers: it lends
//! the engine its spaces and gives the results names.
//!
//! | module    | what it holds                                             |
//! |-----------|-----------------------------------------------------------|
//! | `calls`   | one safe function for each exported one, on lent slices   |
//! | `cycles`  | cycle notation, read and written                          |
//! | `family`  | the families Γ0, Γ1 and Γ, and their tables by name       |
//! | `making`  | symbols from permutations, and of groups by name          |
//! | `matrix`  | the word of one matrix, and whether it is in the group     |
//! | `refusal` | the error: number, place and a sentence                   |
//! | `sheet`   | the words of many pairs                                   |
//! | `same_coset` | whether two matrices share a coset, for one pair or many |
//! | `subgroups` | containment, intersections and towers                  |
//! | `symbol`  | symbols that own their tables, and what can be asked      |
//!
//! ```
//! use farey::{Symbol, Word};
//!
//! let gamma0_2 = Symbol::new(&[(0, 1), (1, 1)], &[1, -2, 1])?;
//! assert_eq!(gamma0_2.figures().index, 3);
//! let (one, t) = ([1, 0, 0, 1], [1, 1, 0, 1]);
//! assert_eq!(gamma0_2.word(one, t)?, Some(Word { sign: 1, letters: vec![1] }));
//! # Ok::<(), farey::Refusal>(())
//! ```

pub mod calls;
pub mod cycles;
pub mod family;
mod making;
pub mod matrix;
pub mod refusal;
pub mod same_coset;
pub mod sheet;
pub mod subgroups;
pub mod symbol;

pub use cycles::{read_cycles, write_cycles};
pub use family::Family;
pub use refusal::Refusal;
pub use sheet::Answer;
pub use subgroups::tower;
pub use symbol::{
    Bounds, CosetCusps, Drawing, Figures, Generator, Kind, Shape, Side, Symbol, Tables, Word,
};
