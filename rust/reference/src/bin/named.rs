//! The reference's program `named`: a family and N in, a symbol or a refusal
//! out.

#![forbid(unsafe_code)]

use std::io::{self, Read, Write};

fn main() -> io::Result<()> {
    let mut text = Vec::new();
    io::stdin().read_to_end(&mut text)?;
    io::stdout().write_all(reference::named(&text).as_bytes())
}
