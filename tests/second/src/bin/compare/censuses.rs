//! Inputs of the census.

use crate::board::Board;
use crate::call::{Call, CENSUS_EMPTY};
use crate::lent::{self, carries_name, with_word};
use crate::numbers::Numbers;
use second::Census;

/// A census that so many blocks could have made.
pub fn of(blocks: u16, numbers: &mut Numbers) -> Census {
    let mut census = Census {
        blocks,
        named: share(blocks, numbers),
        ..Census::default()
    };
    census.unnamed = blocks - census.named;
    divide(blocks, &mut census.udma, numbers);
    divide(blocks, &mut census.version, numbers);
    census
}

/// Any part of so many.
fn share(blocks: u16, numbers: &mut Numbers) -> u16 {
    numbers.below(usize::from(blocks) + 1) as u16
}

fn divide(blocks: u16, classes: &mut [u16], numbers: &mut Numbers) {
    let mut rest = blocks;
    for _ in 0..3 {
        let part = share(rest, numbers);
        classes[numbers.below(classes.len())] += part;
        rest -= part;
    }
    classes[numbers.below(classes.len())] += rest;
}

/// Changes a number, mostly by little, or adds 65,536 blocks to a grouping.
pub fn change(census: &mut Census, numbers: &mut Numbers) {
    let by = numbers.pick(&[1, 0xFFFF, 2, 0x8000]);
    let class = &mut census.version[numbers.below(15)];
    match numbers.below(5) {
        0 => census.blocks = census.blocks.wrapping_add(by),
        1 => census.named = census.named.wrapping_add(by),
        2 => census.udma = census.udma.map(|count| count.wrapping_add(0x2000)),
        3 => *class = class.wrapping_add(by),
        _ => census.unnamed = numbers.next() as u16,
    }
}

/// Every word 80; every low byte of word 88, also beside a chosen mode, by what
/// word 53 says; each bit of word 53; with a name, without, and with none but
/// factory text.
pub fn words(board: &mut Board) {
    board.call(&Call::new(CENSUS_EMPTY, Vec::new()));
    let mut numbers = Numbers::new(80);
    let census = of(1000, &mut numbers);
    let base = with_word(lent::block_0(), 53, 0x0004);
    for value in 0..=0xFFFF {
        board.call(&lent::feed(&census, &with_word(base.clone(), 80, value)));
    }
    for modes in 0..=0xFF {
        for chosen in [0x0000, 0x0100, 0x4000, 0xFF00] {
            for gate in [0x0004, 0x0000, 0x0002, 0x0006, 0xFFFB, 0xFFFF] {
                let block = with_word(with_word(base.clone(), 88, modes | chosen), 53, gate);
                board.call(&lent::feed(&census, &block));
            }
        }
    }
    for bit in 0..16 {
        for gate in [1_u16 << bit, !(1 << bit)] {
            let block = with_word(with_word(base.clone(), 88, 0x0020), 53, gate);
            board.call(&lent::feed(&census, &block));
        }
    }
    for block in lent::blocks() {
        board.call(&lent::feed(&census, &block));
    }
}

/// Censuses that count on and that do not: empty, full, nearly full, and with a
/// grouping that has a block too many, one too few, or 65,536 too many.
fn censuses() -> Vec<Census> {
    let mut numbers = Numbers::new(17);
    let mut all = vec![Census::default()];
    for blocks in [1, 2, 255, 256, 1000, 32_768, 65_534, 65_535] {
        let census = of(blocks, &mut numbers);
        all.push(census);
        for more in [1, 0xFFFF_u16] {
            let mut changed = [census; 5];
            changed[0].blocks = blocks.wrapping_add(more);
            changed[1].named = census.named.wrapping_add(more);
            changed[2].unnamed = census.unnamed.wrapping_add(more);
            let (mode, version) = (numbers.below(8), numbers.below(15));
            changed[3].udma[mode] = census.udma[mode].wrapping_add(more);
            changed[4].version[version] = census.version[version].wrapping_add(more);
            all.extend(changed);
        }
        let mut wrapped = [census; 3];
        (wrapped[0].named, wrapped[0].unnamed) = (0xFFFF, blocks.wrapping_add(1));
        wrapped[1].udma = [0x2000; 8];
        wrapped[1].udma[7] = 0x2000_u16.wrapping_add(blocks);
        wrapped[2].version = [0x1000; 15];
        wrapped[2].version[0] = 0x2000_u16.wrapping_add(blocks);
        all.extend(wrapped);
    }
    all
}

/// Every refusal alone, and every two that can apply together.
pub fn refusals(board: &mut Board) {
    let whole = lent::closed(lent::text_block());
    for census in censuses() {
        for size in [512, 0, 1, 511, 513, 1024] {
            let mut block = whole.clone();
            block.resize(size, 0x2E);
            board.call(&lent::feed(&census, &block));
        }
        board.call(&lent::feed(&census, &lent::damaged_block()));
        board.call(&lent::feed(&census, &lent::block_0()));
    }
}

/// The class of a block in each grouping, read here once more: named or not;
/// mode; version.
fn classes_of(block: &[u8]) -> (bool, usize, usize) {
    let word = |w: usize| u16::from_le_bytes([block[2 * w], block[2 * w + 1]]);
    let modes = word(88) & 0x7F;
    let mode = match modes {
        0 => 7,
        _ if word(53) & 4 == 0 => 7,
        _ => 15 - modes.leading_zeros() as usize,
    };
    let versions = word(80) & 0x7FFE;
    let version = match word(80) {
        0xFFFF => 14,
        _ if versions == 0 => 14,
        _ => 14 - versions.leading_zeros() as usize,
    };
    (carries_name(block), mode, version)
}

/// Fleets of real drives and of others, fed from an empty census, damaged
/// blocks between them, and one fleet until the census is full and further.
/// Back: whether each class has as many blocks as have that property.
pub fn fleets(board: &mut Board, real: &[Vec<u8>], seed: u64) -> bool {
    let mut numbers = Numbers::new(seed);
    let mut agree = fed(board, real, real.len());
    for size in [0, 1, 40, 300] {
        let fleet: Vec<Vec<u8>> = (0..size).map(|_| a_drive(&mut numbers, real)).collect();
        agree &= fed(board, &fleet, size);
    }
    agree && fed(board, real, 65_540)
}

/// A drive with any words 53, 80 and 88; one in eight is damaged.
fn a_drive(numbers: &mut Numbers, real: &[Vec<u8>]) -> Vec<u8> {
    let mut block = real[numbers.below(real.len())].clone();
    for (w, bits) in [(53, 0x0007), (80, 0xFFFF), (88, 0x7F7F), (87, 0xC100)] {
        let few = numbers.next() as u16 & numbers.next() as u16;
        block = with_word(block, w, few & bits);
    }
    block = lent::closed(block);
    if numbers.once_in(8) {
        block[20] ^= 1;
    }
    block
}

/// Feeds so many blocks of a fleet, over and over, to an empty census.
fn fed(board: &mut Board, fleet: &[Vec<u8>], count: usize) -> bool {
    let mut census = second::census_empty();
    let mut wanted = Census::default();
    for block in fleet.iter().cycle().take(count) {
        let number = board.call(&lent::feed(&census, block)).number;
        census = second::census_feed(census, block).next;
        if number == 0 {
            let (named, mode, version) = classes_of(block);
            let form = if named {
                &mut wanted.named
            } else {
                &mut wanted.unnamed
            };
            let (udma, version) = (&mut wanted.udma[mode], &mut wanted.version[version]);
            for count in [&mut wanted.blocks, form, udma, version] {
                *count = count.wrapping_add(1);
            }
        }
    }
    census == wanted
}
