//! The import program in plain Rust.

fn main() -> std::io::Result<()> {
    bench::run(bench::plain_import)
}
