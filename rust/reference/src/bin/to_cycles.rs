//! The reference's program `to_cycles`: two permutations in, their text in cycle notation out,
//! or a refusal.

#![forbid(unsafe_code)]

use std::io::{self, Read, Write};

fn main() -> io::Result<()> {
    let mut text = Vec::new();
    io::stdin().read_to_end(&mut text)?;
    io::stdout().write_all(reference::to_cycles(&text).as_bytes())
}
