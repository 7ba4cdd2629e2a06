//! Does nothing. Its time is what starting a process costs.

fn main() {}
