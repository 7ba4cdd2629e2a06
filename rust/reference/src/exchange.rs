//! Partners exchanged: two free labels, whose second sides trade labels; refusal 23.

use crate::refusal::Refusal;
use crate::symbol::check;

/// The sides with the label x, from the left.
fn sides(pairings: &[i64], x: i64) -> Vec<usize> {
    let sides = pairings.iter().enumerate();
    sides
        .filter(|&(_, &pairing)| pairing == x)
        .map(|(i, _)| i)
        .collect()
}

/// The table of a symbol after the labels x and y have exchanged partners, or the first
/// of the refusals 1 to 7 and 23.
pub fn exchange(v: i64, table: &[i64], x: i64, y: i64) -> Result<Vec<i64>, Refusal> {
    check(v, table)?;
    let vertices = 2 * v as usize;
    let pairings = &table[vertices..];
    for (place, number) in [x, y].into_iter().enumerate() {
        if number < 1 || sides(pairings, number).is_empty() {
            return Err(Refusal::new(23, place));
        }
    }
    if x == y {
        return Err(Refusal::new(23, 1));
    }
    let mut exchanged = table.to_vec();
    exchanged.swap(
        vertices + sides(pairings, x)[1],
        vertices + sides(pairings, y)[1],
    );
    Ok(exchanged)
}
