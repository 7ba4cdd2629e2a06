//! The reference's program `sheet`: a symbol's text and the entries of pairs in,
//! a line for each pair out, or a refusal.

#![forbid(unsafe_code)]

use std::io::{self, Read, Write};

fn main() -> io::Result<()> {
    let mut text = Vec::new();
    io::stdin().read_to_end(&mut text)?;
    io::stdout().write_all(reference::sheet(&text).as_bytes())
}
