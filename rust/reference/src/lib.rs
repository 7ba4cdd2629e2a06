//! The reference implementation: a second engine for Farey symbols of finite
//! index subgroups of PSL2(Z).
//!
//! The engine and this crate answer the same questions by different roads, so
//! that a slip in one of them shows up as a difference. Here every figure comes
//! from one idea: a matrix x stands for the oriented Farey edge from x(0) to
//! x(infinity), and the side pairings carry any such edge back into the
//! polygon. The index is counted, never taken from a formula, and the polygon
//! is never cut into triangles.
//!
//! | module         | what it holds                                                   |
//! |----------------|-----------------------------------------------------------------|
//! | `refusal`      | number and place of a refusal                                   |
//! | `text`         | numbers from bytes, refusal 19                                  |
//! | `matrix`       | integer matrices of determinant 1 and the cusps they name       |
//! | `symbol`       | checks 1 to 7, sides, frames, generators                        |
//! | `polygon`      | carrying an edge back into the polygon, with the letters used   |
//! | `coset`        | tables of S, R, T and the figures drawn from them               |
//! | `sameness`     | whether two symbols generate the same subgroup                  |
//! | `subgroups`    | intersections, containment and towers; 24, 25, 26               |
//! | `drawing`      | sides and box of a drawing, rounded by hand; 22                 |
//! | `exchange`     | the partners of two labels exchanged; 23                        |
//! | `word`         | pair queries: membership, the walk, a word's product and sign   |
//! | `sheet`        | a sheet of pairs: single queries in one word space              |
//! | `permutations` | checks 12 to 16, from two permutations to a symbol, two rules   |
//! | `cycles`       | cycle notation, read and written; 27                            |
//! | `congruence`   | Γ0(N), Γ1(N), Γ(N): condition, index, permutations; 20 and 21   |
//! | `report`       | the whole output of the programs                                |
//! | `random`       | test symbols, pairs, matrices and texts, sound and damaged      |

#![forbid(unsafe_code)]

pub mod congruence;
pub mod coset;
pub mod cycles;
pub mod drawing;
pub mod exchange;
pub mod matrix;
pub mod permutations;
pub mod polygon;
pub mod random;
pub mod refusal;
pub mod report;
pub mod sameness;
pub mod sheet;
pub mod subgroups;
pub mod symbol;
pub mod text;
pub mod word;

pub use refusal::Refusal;
pub use report::{cycles, named_leftmost, named_wide, to_cycles};
pub use report::{
    exchange, import, import_wide, intersection, listing, named, query, same, sheet, tower,
};
