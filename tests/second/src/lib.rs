//! The independent second program of Piongseut: the rules of the bridge board
//! in plain Rust, written from the papers alone, so that the proved board can
//! be compared with it byte for byte.
//!
//! "RULES 8.2" is section 8.2 of `docs/RULES.md`, where a rule of the papers is
//! told. Nothing here is made to be fast.

#![forbid(unsafe_code)]

pub mod build;
pub mod census;
pub mod check;
pub mod completion;
pub mod fault;
pub mod fields;
pub mod identify;
pub mod inquiry;
pub mod intake;
pub mod lent;
pub mod lines;
pub mod order;
pub mod packet;
pub mod page83;
pub mod pages;
pub mod ports;
pub mod refusal;
pub mod roll;
pub mod sense;

pub use build::{build, Built};
pub use census::{census_empty, census_feed, Census, Fed};
pub use check::{check, Checked};
pub use completion::{complete, Ended};
pub use inquiry::{inquiry, Inquiry};
pub use intake::{block_size, gather, intake_empty, intake_take, Counted, Intake, RunTaken};
pub use order::{submit, Order, Record, Taken};
pub use page83::{read_page83, write_page83, Name, Written};
pub use ports::Ports;
pub use roll::{roll, rollcall, Roll};
