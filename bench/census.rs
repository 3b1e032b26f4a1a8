//! The program `census` in plain Rust, over the intake and the census of plain.rs, for `bench/run census`: it reads standard input in
//! parts of 64 KiB and prints what the board's program prints.
#[allow(dead_code)]
#[path = "plain.rs"]
mod plain;

use plain::{plain_census_empty, plain_census_feed, plain_intake_take, Intake};
use std::io::{self, Read, Write};

const EMPTY: Intake = Intake { have: 0, sum: 0 };

fn census() -> io::Result<()> {
    let (mut census, mut damaged) = (plain_census_empty(), 0u64);
    let (mut intake, mut store) = (EMPTY, [0u8; 512]);
    let (mut part, mut input) = ([0u8; 65536], io::stdin().lock());
    loop {
        let count = input.read(&mut part)?;
        if count == 0 {
            break;
        }
        let mut run = &part[..count];
        while !run.is_empty() {
            // Safety: every pointer goes with the length of its slice.
            let took = unsafe { plain_intake_take(intake, store.as_mut_ptr(), 512, run.as_ptr(), run.len()) };
            run = &run[usize::from(took.used)..];
            intake = took.next;
            if took.complete == 0 {
                continue;
            }
            intake = EMPTY;
            let fed = unsafe { plain_census_feed(census, store.as_ptr(), 512) };
            census = fed.next;
            match fed.number {
                0 => {}
                18 => damaged += 1,
                number => return writeln!(io::stdout(), "refused {number}"),
            }
        }
    }
    if intake.have != 0 {
        return writeln!(io::stdout(), "refused 1");
    }
    let mut said = format!("blocks {}\ndamaged {damaged}\nwwn {}\ntext {}\n", census.blocks, census.named, census.unnamed);
    let modes = (0..7).map(|mode| mode.to_string()).chain(["none".into()]);
    let versions = (1..15).map(|version| version.to_string()).chain(["none".into()]);
    said.extend(modes.zip(census.udma).map(|(mode, count)| format!("udma {mode} {count}\n")));
    said.extend(versions.zip(census.version).map(|(version, count)| format!("version {version} {count}\n")));
    io::stdout().write_all(said.as_bytes())
}

/// The program is compiled as a library, as plain.rs is, and linked by the C compiler that links the measured calls.
#[no_mangle]
pub extern "C" fn main() -> i32 {
    census().is_err().into()
}
