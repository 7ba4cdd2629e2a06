//! Writes the texts to measure with into a folder.
//!
//!     make-inputs FOLDER

use std::path::Path;
use std::{env, fs, io};

fn main() -> io::Result<()> {
    let folder = env::args_os()
        .nth(1)
        .ok_or_else(|| io::Error::new(io::ErrorKind::InvalidInput, "usage: make-inputs FOLDER"))?;
    fs::create_dir_all(&folder)?;
    for input in bench::inputs::inputs() {
        fs::write(Path::new(&folder).join(input.name), &input.text)?;
        println!("{} ({} bytes)", input.name, input.text.len());
    }
    Ok(())
}
