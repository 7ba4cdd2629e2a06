//! The reference's program `tower`: a count and a table in, `passes` or a refusal out.

#![forbid(unsafe_code)]

use std::io::{self, Read, Write};

fn main() -> io::Result<()> {
    let mut text = Vec::new();
    io::stdin().read_to_end(&mut text)?;
    io::stdout().write_all(reference::tower(&text).as_bytes())
}
