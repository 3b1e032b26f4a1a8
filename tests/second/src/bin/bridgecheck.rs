//! `bridgecheck < CAPTURE`: what the second program says of a capture, as the
//! board's program of that name prints it.

use std::io::{self, Read};

fn main() -> io::Result<()> {
    let mut capture = Vec::new();
    io::stdin().lock().read_to_end(&mut capture)?;
    let said = second::check(&capture);
    match said.number {
        0 if said.accepted == 1 => println!("accepted"),
        0 => println!("differs {:02X} at {}", said.tag, said.place),
        21 => println!("refused 21 at {}", said.place),
        number => println!("refused {number}"),
    }
    Ok(())
}
