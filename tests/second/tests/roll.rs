//! The roll of drives, and its agreement with the identification pages.

mod common;

use common::*;
use second::{roll, rollcall, Roll};

fn rows_of(blocks: &[[u8; 512]]) -> (Vec<u16>, u16) {
    let mut rows = vec![77; blocks.len() + 2];
    let answer = roll(&blocks.concat(), &mut rows);
    let count = blocks.len() as u16;
    assert_eq!(
        answer,
        Roll {
            number: 0,
            blocks: count,
            drives: answer.drives
        }
    );
    assert_eq!(rows.split_off(blocks.len()), [77, 77]);
    (rows, answer.drives)
}

#[test]
fn row_room_just_large_enough() {
    let mut rows = [0; 2];
    let answer = roll(&[block_0(), zero_block()].concat(), &mut rows);
    assert_eq!(
        answer,
        Roll {
            number: 0,
            blocks: 2,
            drives: 2
        }
    );
    assert_eq!(rows, [1, 2]);
}

/// Version two of the board listed such a drive twice.
#[test]
fn zero_bytes_are_spaces() {
    let mut spaces = zero_block();
    spaces[20..40].fill(0x20);
    spaces[54..94].fill(0x20);
    let mut half = zero_block();
    half[30] = 0x20;
    half[93] = 0x20;
    assert_eq!(rows_of(&[zero_block(), spaces, half]), (vec![1, 1, 1], 1));
}

/// Version one took drives of one make for one drive.
#[test]
fn every_byte_of_model_and_serial_counts() {
    for at in (20..40).chain(54..94) {
        let mut other = zero_block();
        other[at] = 0x41;
        assert_eq!(rows_of(&[zero_block(), other]), (vec![1, 2], 2));
    }
}

#[test]
fn nothing_else_counts_for_a_text() {
    let mut other = [0xEE; 512];
    other[20..40].fill(0);
    other[54..94].fill(0);
    other[216..224].fill(0);
    assert_eq!(rows_of(&[zero_block(), other]), (vec![1, 1], 1));
}

#[test]
fn a_name_alone_counts() {
    let mut same_name = [0xEE; 512];
    same_name[174..176].copy_from_slice(&NAMED);
    same_name[216..224].copy_from_slice(&BLOCK_0_NAME);
    assert_eq!(rows_of(&[block_0(), same_name]), (vec![1, 1], 1));
    for at in 216..224 {
        let mut other = block_0();
        other[at] ^= 0x01;
        assert_eq!(rows_of(&[block_0(), other]), (vec![1, 2], 2));
    }
}

/// In a name a zero byte is no space.
#[test]
fn zero_bytes_of_a_name_are_kept() {
    let mut other = block_0();
    other[216] = 0x20;
    assert_eq!(rows_of(&[block_0(), other]), (vec![1, 2], 2));
}

#[test]
fn a_name_and_no_name_are_two_drives() {
    let mut named = text_block();
    named[174..176].copy_from_slice(&NAMED);
    named[223] = 1;
    assert_eq!(rows_of(&[text_block(), named]), (vec![1, 2], 2));
}

/// Twelve drives of one maker, with factory text where a name stands.
#[test]
fn factory_text_is_no_name() {
    let blocks: Vec<[u8; 512]> = (0..12)
        .map(|at| {
            let mut block = text_block();
            block[174..176].copy_from_slice(&[0x00, 0x40]);
            block[216..224].copy_from_slice(b"AFTCRO Y");
            block[21] = b'A' + at;
            block
        })
        .collect();
    let (rows, drives) = rows_of(&blocks);
    assert_eq!((rows, drives), ((1..=12).collect(), 12));
    let mut other_text = blocks[3];
    other_text[220] ^= 1;
    assert_eq!(rows_of(&[blocks[3], other_text]), (vec![1, 1], 1));
}

/// Both blocks are asked whether they have a name.
#[test]
fn a_name_and_factory_text_are_two_drives() {
    let mut junk = block_0();
    junk[175] = 0x40;
    assert_eq!(rows_of(&[block_0(), junk]), (vec![1, 2], 2));
    assert_eq!(rows_of(&[junk, block_0()]), (vec![1, 2], 2));
    assert_eq!(rows_of(&[junk, zero_block()]), (vec![1, 1], 1));
}

#[test]
fn rows_run_by_first_appearance() {
    let mut third = zero_block();
    third[54] = 0x33;
    let blocks = [
        third,
        block_0(),
        third,
        zero_block(),
        block_0(),
        zero_block(),
        third,
    ];
    assert_eq!(rows_of(&blocks), (vec![1, 2, 1, 3, 2, 3, 1], 3));
}

#[test]
fn sixty_four_different_drives() {
    let blocks: Vec<[u8; 512]> = (0..64)
        .map(|at| {
            let mut block = zero_block();
            block[39] = 0x30 + at;
            block
        })
        .collect();
    let (rows, drives) = rows_of(&blocks);
    assert_eq!(rows, (1..=64).collect::<Vec<u16>>());
    assert_eq!(drives, 64);
    let text = rollcall(&blocks.concat());
    assert!(text.starts_with("blocks 64 drives 64\n0 1 text\n"));
    assert!(text.ends_with("\n63 64 text\n"));
}

/// Two blocks have the same row exactly if their pages 83h are equal (demand 3).
#[test]
fn rows_agree_with_the_pages() {
    let mut numbers = Numbers(3);
    for _ in 0..200 {
        let blocks: Vec<[u8; 512]> = (0..numbers.below(65))
            .map(|_| some_block(&mut numbers))
            .collect();
        let (rows, drives) = rows_of(&blocks);
        let pages: Vec<Vec<u8>> = blocks.iter().map(|block| page_of(block)).collect();
        for a in 0..blocks.len() {
            for b in 0..blocks.len() {
                assert_eq!(rows[a] == rows[b], pages[a] == pages[b]);
            }
        }
        assert_eq!(drives, rows.iter().copied().max().unwrap_or(0));
    }
}

/// A block of few kinds, so that drives come again.
fn some_block(numbers: &mut Numbers) -> [u8; 512] {
    let mut block = zero_block();
    for _ in 0..numbers.below(3) {
        let at = [20, 39, 54, 93, 175, 216, 223, 0, 94][numbers.below(9)];
        block[at] = [0x00, 0x20, 0x41][numbers.below(3)];
    }
    block
}

fn page_of(block: &[u8]) -> Vec<u8> {
    let mut room = [0; 76];
    let written = write_without_ports(block, &mut room);
    room[..written.count].to_vec()
}
