//! Links the archive of the proved engine, `libengine.a`, which `tools/prove
//! staticlib engine` makes in the repository, in `target/staticlib`. A copy of
//! this crate elsewhere is told the archive's folder by `FAREY_LIBRARY_DIR`.

use std::env;
use std::path::{Path, PathBuf};

const VARIABLE: &str = "FAREY_LIBRARY_DIR";

fn main() {
    println!("cargo:rerun-if-env-changed={VARIABLE}");
    let here = env::var("CARGO_MANIFEST_DIR").expect("cargo names the crate's folder");
    let folder = match env::var_os(VARIABLE).filter(|named| !named.is_empty()) {
        Some(named) => PathBuf::from(named),
        None => Path::new(&here).join("../../target/staticlib"),
    };
    let archive = folder.join("libengine.a");
    println!("cargo:rerun-if-changed={}", archive.display());
    // The linker is run in another folder, so that a relative path wouldn't lead there.
    assert!(
        folder.is_absolute(),
        "{VARIABLE} is {}, which is no absolute path",
        folder.display()
    );
    assert!(
        archive.is_file(),
        "there is no {}: run `tools/prove staticlib engine` in the repository, or set {VARIABLE} to the folder of libengine.a",
        archive.display()
    );
    println!("cargo:rustc-link-search=native={}", folder.display());
    println!("cargo:rustc-link-lib=static=engine");
}
