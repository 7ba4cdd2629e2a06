//! The job `named` in plain Rust.

fn main() -> std::io::Result<()> {
    bench::run(bench::plain_named)
}
