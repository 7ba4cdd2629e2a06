//! Test material from a seed: the same seed and case number always give the
//! same text, so a difference that was found once can be looked at again.
//!
//! | module     | what it makes                                              |
//! |------------|------------------------------------------------------------|
//! | `rng`      | numbers (splitmix64)                                       |
//! | `drafts`   | sound symbols of 1 to 1,023 vertices                       |
//! | `faults`   | symbols with faults 1 and 3 to 7, texts with fault 19      |
//! | `matrices` | matrices of determinant 1, pairs with and without a word   |
//! | `pairs`    | permutation pairs, with faults 12 to 15                    |
//! | `deep`     | permutation pairs of long rows of triangles and of trees   |
//! | `cycles`   | texts in cycle notation, right and damaged                 |
//! | `twins`    | a second symbol, of the same group or of another           |
//! | `towers`   | two symbols, subgroups and towers of them                  |
//! | `cases`    | whole texts for the programs                               |

pub mod cases;
pub mod cycles;
pub mod deep;
pub mod drafts;
pub mod faults;
pub mod matrices;
pub mod pairs;
pub mod rng;
pub mod towers;
pub mod twins;

pub use cases::{import_case, listing_case, query_case, same_case};
pub use rng::Rng;
