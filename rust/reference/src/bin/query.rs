//! The reference's query program: a symbol and two matrices in, a word with its
//! sign or a refusal out.

#![forbid(unsafe_code)]

use std::io::{self, Read, Write};

fn main() -> io::Result<()> {
    let mut text = Vec::new();
    io::stdin().read_to_end(&mut text)?;
    io::stdout().write_all(reference::query(&text).as_bytes())
}
