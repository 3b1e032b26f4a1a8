//! The board's side of the comparison test (`tests/second`), around the Rust
//! wrapper: it reads the calls that `tests/second/board.c` reads, makes each
//! through `bindings/rust`, on exactly the lent bytes, between guard bytes, and
//! writes back what that one writes. Its first lines tell the form of both.
//!
//! What the wrapper says by a name is a number again here by the rule book's
//! tables (`named.rs`), and not by the wrapper's own.

#![forbid(unsafe_code)]

mod calls;
mod lent;
mod named;

use calls::Call;
use std::io::{self, Read, Write};

fn main() -> io::Result<()> {
    let (mut input, mut output) = (io::stdin().lock(), io::stdout().lock());
    let mut call = Call::default();
    let mut size = [0; 4];
    while input.read(&mut size[..1])? == 1 {
        input.read_exact(&mut size[1..])?;
        let mut batch = vec![0; u32::from_le_bytes(size) as usize];
        input.read_exact(&mut batch)?;
        let mut answers = Vec::with_capacity(batch.len());
        let mut from = lent::Bytes(&batch);
        while !from.0.is_empty() {
            let call_size = from.number(4) as usize;
            call.read(from.take(call_size));
            call.answer(&mut answers);
        }
        output.write_all(&answers)?;
        output.flush()?;
    }
    if call.unsaid > 0 {
        let unsaid = call.unsaid;
        eprintln!("board: {unsaid} orders have a CK_COND or EXTEND above 1, which no bool is: 23, unasked");
    }
    Ok(())
}
