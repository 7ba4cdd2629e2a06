//! The reference's program `same`: two symbols' texts in, `same`, `different`
//! or a refusal out.

#![forbid(unsafe_code)]

use std::io::{self, Read, Write};

fn main() -> io::Result<()> {
    let mut text = Vec::new();
    io::stdin().read_to_end(&mut text)?;
    io::stdout().write_all(reference::same(&text).as_bytes())
}
