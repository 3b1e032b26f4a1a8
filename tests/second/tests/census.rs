//! The census: which class a block is in, and when it cannot be counted.

mod common;

use common::*;
use second::{census_empty, census_feed, Census, Fed};

fn with(words: &[(usize, u16)]) -> [u8; 512] {
    let mut block = zero_block();
    for &(w, value) in words {
        block[2 * w..2 * w + 2].copy_from_slice(&value.to_le_bytes());
    }
    block
}

/// The classes that one block is counted in.
fn one(block: &[u8]) -> Census {
    let fed = census_feed(census_empty(), block);
    assert_eq!((fed.number, fed.next.blocks), (0, 1));
    fed.next
}

/// The place of the one block in a grouping.
fn place(classes: &[u16]) -> usize {
    assert_eq!(classes.iter().sum::<u16>(), 1);
    classes.iter().position(|&count| count == 1).unwrap_or(99)
}

fn mode(word_53: u16, word_88: u16) -> usize {
    place(&one(&with(&[(53, word_53), (88, word_88)])).udma)
}

fn version(word_80: u16) -> usize {
    place(&one(&with(&[(80, word_80)])).version)
}

#[test]
fn an_empty_census_counts_nothing() {
    let zeros = Census {
        blocks: 0,
        named: 0,
        unnamed: 0,
        udma: [0; 8],
        version: [0; 15],
    };
    assert_eq!(census_empty(), zeros);
}

#[test]
fn names() {
    assert_eq!((one(&block_0()).named, one(&block_0()).unnamed), (1, 0));
    let mut junk = block_0();
    junk[175] = 0x40;
    for block in [zero_block(), junk] {
        assert_eq!((one(&block).named, one(&block).unnamed), (0, 1));
    }
}

#[test]
fn the_highest_mode() {
    for highest in 0..=6 {
        assert_eq!(mode(0x0004, 1 << highest), highest);
        assert_eq!(mode(0x0007, (2 << highest) - 1), highest);
        assert_eq!(mode(0xFFFF, 0x4080 | 1 << highest), highest);
        assert_eq!(mode(0xFFFB, 1 << highest), 7);
    }
    assert_eq!(mode(0x0004, 0x0000), 7);
    assert_eq!(mode(0x0004, 0xFF80), 7);
}

#[test]
fn the_highest_version() {
    for highest in 1..=14 {
        assert_eq!(version(1 << highest), highest - 1);
        assert_eq!(version((2 << highest) - 2), highest - 1);
        assert_eq!(version(0x8001 | 1 << highest), highest - 1);
    }
    for none in [0x0000, 0xFFFF, 0x0001, 0x8000, 0x8001] {
        assert_eq!(version(none), 14);
    }
    assert_eq!(version(0xFFFE), 13);
    assert_eq!(version(0x7FFF), 13);
}

/// A census of so many blocks that all are in the last classes.
fn of(blocks: u16) -> Census {
    let mut census = Census {
        blocks,
        unnamed: blocks,
        ..Census::default()
    };
    census.udma[7] = blocks;
    census.version[14] = blocks;
    census
}

fn refused(census: Census, block: &[u8], number: u8) {
    let wanted = Fed {
        next: census,
        number,
    };
    assert_eq!(census_feed(census, block), wanted);
}

#[test]
fn it_counts_to_65_535() {
    let mut census = census_empty();
    for _ in 0..65_535 {
        let fed = census_feed(census, &zero_block());
        assert_eq!(fed.number, 0);
        census = fed.next;
    }
    assert_eq!(census, of(65_535));
    refused(census, &zero_block(), 17);
}

#[test]
fn row_1_of_every_other_size() {
    for size in [0, 1, 511, 513, 1024] {
        refused(of(3), &vec![0; size], 1);
        refused(of(65_535), &vec![0; size], 1);
    }
}

/// A grouping that has one block too many or too few, or 65,536 too many.
#[test]
fn row_17_of_each_grouping() {
    let block = block_0();
    for blocks in [0, 1, 7, 65_534] {
        assert_eq!(census_feed(of(blocks), &block).number, 0);
        for more in [1, 0xFFFF] {
            let mut changed = [of(blocks); 6];
            changed[0].blocks = blocks.wrapping_add(more);
            changed[1].named = more;
            changed[2].unnamed = blocks.wrapping_add(more);
            changed[3].udma[0] = more;
            changed[4].version[0] = more;
            changed[5].version[13] = more;
            for census in changed {
                refused(census, &block, 17);
            }
        }
        let mut wrapped = [of(blocks); 3];
        (wrapped[0].named, wrapped[0].unnamed) = (0xFFFF, blocks + 1);
        wrapped[1].udma[..4].fill(0x4000);
        wrapped[2].version[..4].fill(0x4000);
        for census in wrapped {
            refused(census, &block, 17);
        }
    }
}

fn damaged() -> [u8; 512] {
    let mut block = block_0();
    block[510] = 0xA5;
    block
}

#[test]
fn row_18_after_17() {
    refused(of(5), &damaged(), 18);
    refused(of(65_535), &damaged(), 17);
    let mut wrong = of(5);
    wrong.udma[0] = 1;
    refused(wrong, &damaged(), 17);
}

/// Each class has as many blocks as have its property, and each grouping as
/// many as were fed.
#[test]
fn counts_of_a_fleet() {
    let fleet = [
        with(&[(53, 4), (88, 0x203F), (80, 0x01F8)]),
        with(&[(53, 4), (88, 0x407F), (80, 0x00FC)]),
        with(&[(53, 0), (88, 0x407F), (80, 0xFFFF)]),
        damaged(),
        with(&[(53, 6), (88, 0x003F)]),
        block_0(),
    ];
    let mut census = census_empty();
    for block in &fleet {
        census = census_feed(census, block).next;
    }
    assert_eq!((census.blocks, census.named, census.unnamed), (5, 1, 4));
    assert_eq!(census.udma, [0, 0, 0, 0, 0, 2, 1, 2]);
    assert_eq!(census.version[6..9], [1, 1, 0]);
    assert_eq!(census.version[14], 3);
}
