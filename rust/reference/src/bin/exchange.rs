//! The reference's program `exchange`: a symbol and two labels in, the symbol in which
//! these have exchanged partners out, or a refusal.

#![forbid(unsafe_code)]

use std::io::{self, Read, Write};

fn main() -> io::Result<()> {
    let mut text = Vec::new();
    io::stdin().read_to_end(&mut text)?;
    io::stdout().write_all(reference::exchange(&text).as_bytes())
}
