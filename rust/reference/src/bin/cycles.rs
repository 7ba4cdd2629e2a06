//! The reference's program `cycles`: a text in cycle notation in, the tables of S and R out, or
//! a refusal.

#![forbid(unsafe_code)]

use std::io::{self, Read, Write};

fn main() -> io::Result<()> {
    let mut text = Vec::new();
    io::stdin().read_to_end(&mut text)?;
    io::stdout().write_all(reference::cycles(&text).as_bytes())
}
