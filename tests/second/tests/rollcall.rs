//! The program `rollcall`, run with its standard input and output.

mod common;

use common::*;
use std::io::Write;
use std::process::{Command, Stdio};

fn run(input: &[u8]) -> String {
    let mut program = Command::new(env!("CARGO_BIN_EXE_rollcall"))
        .stdin(Stdio::piped())
        .stdout(Stdio::piped())
        .spawn()
        .expect("rollcall starts");
    // The program may close its input at 32,769 bytes; that is no failure.
    let _ = program.stdin.take().expect("input").write_all(input);
    let output = program.wait_with_output().expect("rollcall ends");
    assert!(output.status.success());
    String::from_utf8(output.stdout).expect("plain text")
}

#[test]
fn prints_the_sample() {
    let mut block_1 = block_0();
    block_1[20] = 0x41;
    let input = [block_0(), block_1, zero_block()].concat();
    let wanted = "blocks 3 drives 2\n0 1 wwn\n1 1 wwn\n2 2 text\n";
    assert_eq!(run(&input), wanted);
}

#[test]
fn prints_refused_1_alone() {
    assert_eq!(run(&[0; 511]), "refused 1\n");
    assert_eq!(run(&vec![0; 65 * 512]), "refused 1\n");
    assert_eq!(run(&vec![0; 100 * 512]), "refused 1\n");
}

#[test]
fn prints_an_empty_and_a_full_roll() {
    assert_eq!(run(&[]), "blocks 0 drives 0\n");
    let full = run(&vec![0; 64 * 512]);
    assert!(full.starts_with("blocks 64 drives 1\n0 1 text\n"));
    assert!(full.ends_with("\n63 1 text\n"));
}
