//! A sheet of pairs: the polygon and the generators' matrices are made once.

use crate::polygon::Polygon;
use crate::query::{matrices, walk, Pair};
use crate::symbol::Symbol;
use crate::Refusal;

/// The line of each pair, eight entries, as the engine has them; the words one
/// behind another in out.
pub fn sheet(
    v: i64,
    table: &[i64],
    entries: &[i64],
    out: &mut [i16],
) -> Result<Vec<[i64; 4]>, Refusal> {
    if entries.len() % 8 != 0 || entries.len() > 2_048 {
        return Err((11, 2_048));
    }
    let symbol = Symbol::new(v, table)?;
    let (polygon, matrices) = (Polygon::new(&symbol), matrices(&symbol));
    let (mut lines, mut letters) = (Vec::with_capacity(entries.len() / 8), Vec::new());
    let mut next = 0;
    for entries in entries.chunks_exact(8) {
        letters.clear();
        let found = Pair::new(entries).and_then(|pair| {
            walk(&polygon, pair.quotient(), out.len() - next, &mut letters)?;
            Ok(pair.is_taken(&matrices, &letters))
        });
        lines.push(match found {
            Ok(plus) => {
                let (start, length) = (next, letters.len());
                out[start..][..length].copy_from_slice(&letters);
                next += length;
                [0, start as i64, length as i64, if plus { 1 } else { -1 }]
            }
            Err((number, place)) => [number.into(), place as i64, 0, 0],
        });
    }
    Ok(lines)
}
