//! The bench program: it reads records from standard input and prints per event one line.

use std::io::{self, Read, Write};

fn main() -> io::Result<()> {
    let mut input = Vec::new();
    io::stdin().read_to_end(&mut input)?;
    io::stdout().write_all(reference::bench::output(&input).as_bytes())
}
