//! The bridge board Piongseut for Rust hosts: safe slices and enums over its C
//! library, `libpiongseut.a`, in which every function is proved to do what the
//! rule book (`docs/RULES.md`, "RULES 4" is its section 4) says, for all inputs.
//!
//! # How header and crate are held together
//!
//! What the C header says stands here once more, as one table in `src/ffi.rs`:
//! its constants, its structs field by field with the place of each, its
//! functions. The compiler makes the Rust items of that table, and so it cannot
//! compile where they differ from it: a struct of another size or alignment, or
//! a field at another place, is an error in a constant. The same table is
//! written out as static assertions in C, which a test (`src/header.rs`, part of
//! `cargo test`) compiles with the header: there every constant, size,
//! alignment, offset, field type and prototype that differs is an error that
//! names it. The crate's version is the header's, asked by the same test.
//!
//! # What every function keeps
//!
//! - Pieces that are lent may have any size and any content. None panics,
//!   allocates, blocks or keeps state. Where C answers a number, an enum has its
//!   name; a number without a name, which the proof excludes, would come as
//!   `Other`.
//! - Pieces that are written never overlap another lent piece, since Rust lends
//!   them with `&mut`. Those that are only read may overlap each other.
//! - What is written stands at the front of its room, and what is behind it
//!   stays. A refusal writes nothing but sense data.
//!
//! # An example
//!
//! ```
//! use piongseut::{inquiry, Form, Inquiry, Ports, Shown};
//!
//! let block = [0x20; 512]; // IDENTIFY data
//! let asked = Inquiry {
//!     command: &[0x12, 0x01, 0x80, 0x00, 0xFF, 0x00],
//!     block: &block,
//!     signature: &[0; 20],
//!     texts: b"VENDOR  PRODUCT         1.00",
//!     reply: &[],
//!     ports: Ports::default(),
//!     form: Form::Descriptor,
//! };
//! let (mut room, mut sense) = ([0; 572], [0; 22]);
//! let shown = inquiry(&asked, &mut room, &mut sense)?;
//! assert_eq!(shown.bytes()[..4], [0x00, 0x80, 0x00, 20]);
//! assert_eq!(shown.bytes().len(), piongseut::PAGE80_SIZE);
//! # Ok::<(), piongseut::Refused>(())
//! ```

#![cfg_attr(not(any(feature = "std", test)), no_std)]
#![deny(missing_docs, unsafe_op_in_unsafe_fn)]

mod builder;
mod census;
mod check;
mod ffi;
#[cfg(test)]
mod header;
mod inquiry;
mod intake;
mod numbers;
mod page83;
mod passthrough;
mod roll;
mod table;

pub use builder::{build, Command};
pub use check::{check, Checked, Field};
pub use ffi::{Census, Intake};
pub use ffi::{
    ADDRESS_SIZE, BLOCK_SIZE, CENSUS_BLOCKS, CENSUS_MODES, CENSUS_NO_MODE, CENSUS_NO_VERSION,
    CENSUS_VERSIONS, COMMAND_LONG_SIZE, COMMAND_SHORT_SIZE, COMMAND_SIZE, FIXED_SENSE_SIZE,
    MODEL_SIZE, PAGE00_SIZE, PAGE80_SIZE, PAGE83_MOST_SIZE, PAGE83_TEXT_SIZE, PAGE83_WWN_SIZE,
    PAGE89_SIZE, REFUSAL_SENSE_SIZE, REGISTERS_SIZE, ROLL_BLOCKS, SENSE_SIZE, SERIAL_SIZE,
    SIGNATURE_SIZE, STANDARD_SIZE, TEXTS_SIZE, WWN_SIZE,
};
pub use inquiry::{inquiry, Inquiry, Shown};
pub use intake::{gather, Took};
pub use numbers::{Direction, Edition, Form, Protocol, Refusal, Refused, Status};
pub use page83::{read_page83, write_page83, Name, Page83, Ports};
pub use passthrough::{Completed, Order, Record, State, Submit, Submitted};
pub use roll::{roll, Roll};

/// Places of the drive's registers in the bytes that are lent. Of count and LBA
/// a register has two bytes, the upper one first.
pub mod register {
    pub use crate::ffi::{
        REGISTER_COUNT_HIGH as COUNT_HIGH, REGISTER_COUNT_LOW as COUNT_LOW,
        REGISTER_DEVICE as DEVICE, REGISTER_ERROR as ERROR,
        REGISTER_LBA_HIGH_HIGH as LBA_HIGH_HIGH, REGISTER_LBA_HIGH_LOW as LBA_HIGH_LOW,
        REGISTER_LBA_LOW_HIGH as LBA_LOW_HIGH, REGISTER_LBA_LOW_LOW as LBA_LOW_LOW,
        REGISTER_LBA_MID_HIGH as LBA_MID_HIGH, REGISTER_LBA_MID_LOW as LBA_MID_LOW,
        REGISTER_STATUS as STATUS,
    };
}

/// The first `count` bytes; all of them where there are fewer, which the proof
/// excludes.
fn front(bytes: &[u8], count: usize) -> &[u8] {
    &bytes[..count.min(bytes.len())]
}
