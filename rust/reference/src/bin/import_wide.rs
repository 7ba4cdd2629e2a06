//! The reference's program `import_wide`: two permutations in, a symbol by the
//! wide rule or a refusal out.

#![forbid(unsafe_code)]

use std::io::{self, Read, Write};

fn main() -> io::Result<()> {
    let mut text = Vec::new();
    io::stdin().read_to_end(&mut text)?;
    io::stdout().write_all(reference::import_wide(&text).as_bytes())
}
