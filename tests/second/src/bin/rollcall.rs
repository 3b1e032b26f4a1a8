//! The program `rollcall` of the second program, to be compared with the
//! board's own on the same standard input.

use std::io::{self, Read, Write};

fn main() -> io::Result<()> {
    let mut input = Vec::new();
    // One byte above 32,768 is refused already, so an endless input ends too.
    io::stdin().lock().take(32_769).read_to_end(&mut input)?;
    io::stdout().write_all(second::rollcall(&input).as_bytes())
}
