//! A yardstick: five of the engine's programs, and sameness, intersections and sheets of
//! pairs as functions, once more in plain Rust, written for speed and without any proof. Whoever wants to
//! know what the engine's proofs cost in time compares with these.
//!
//! | module    | what it holds                                                    |
//! |-----------|------------------------------------------------------------------|
//! | `text`    | numbers from bytes and back                                      |
//! | `symbol`  | checks 1 to 7, partners and generators                           |
//! | `polygon` | the polygon cut into triangles, and one step of S, Q or Q^-1     |
//! | `listing` | a symbol's text in, its listing out                              |
//! | `query`   | a symbol and two matrices in, a word out, letter by letter       |
//! | `import`  | two permutations in, a symbol out, by either rule                |
//! | `named`   | a family and N in, a symbol out                                  |
//! | `same`    | whether two symbols generate the same subgroup, as a function    |
//! | `sheet`   | many pairs against one symbol, whose tables are built once       |
//! | `same_coset` | whether pairs share a coset, one T at a time                  |
//! | `subgroups` | intersections and containment, as functions                    |
//! | `inputs`  | texts to measure with                                            |
//! | `timing`  | wall times of two programs, run by turns                         |
//!
//! Every answer is the same, byte for byte, as that of the reference beside it;
//! `tests/` compares the two.

#![forbid(unsafe_code)]

pub mod import;
pub mod inputs;
pub mod listing;
pub mod named;
pub mod polygon;
pub mod query;
pub mod same;
pub mod same_coset;
pub mod sheet;
pub mod subgroups;
pub mod symbol;
pub mod text;
pub mod timing;

use std::io::{self, Read, Write};

pub use import::{plain_import, plain_import_wide};
pub use listing::plain_listing;
pub use named::plain_named;
pub use query::plain_query;

/// A refusal's number and place.
pub type Refusal = (u32, usize);

/// A refusal's line.
pub(crate) fn refused((number, place): Refusal) -> Vec<u8> {
    format!("refused {number} {place}\n").into_bytes()
}

/// Reads standard input, no further than it takes to see that it is too long,
/// and prints what `answer` makes of it.
pub fn run(answer: impl FnOnce(&[u8]) -> Vec<u8>) -> io::Result<()> {
    let mut text = Vec::with_capacity(text::MAX_TEXT + 1);
    let most = text::MAX_TEXT as u64 + 1;
    io::stdin().lock().take(most).read_to_end(&mut text)?;
    io::stdout().lock().write_all(&answer(&text))
}
