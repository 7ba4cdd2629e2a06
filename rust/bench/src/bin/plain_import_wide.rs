//! The job `import-wide` in plain Rust.

fn main() -> std::io::Result<()> {
    bench::run(bench::plain_import_wide)
}
