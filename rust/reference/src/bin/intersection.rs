//! The reference's program `intersection`: two symbols in, the tables of S and R of
//! the intersection of their groups out, or a refusal.

#![forbid(unsafe_code)]

use std::io::{self, Read, Write};

fn main() -> io::Result<()> {
    let mut text = Vec::new();
    io::stdin().read_to_end(&mut text)?;
    io::stdout().write_all(reference::intersection(&text).as_bytes())
}
