//! The program `build` of the second program, to be compared with the board's
//! own on the same standard input. Cargo keeps that name for itself.

use std::io::{self, Read, Write};

fn main() -> io::Result<()> {
    let mut input = Vec::new();
    io::stdin().lock().read_to_end(&mut input)?;
    let said = second::lines::lines(&input);
    io::stdout().write_all(said.out.as_bytes())?;
    io::stderr().write_all(said.err.as_bytes())
}
