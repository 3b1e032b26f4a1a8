//! Inputs of submit by its edition: the 32-byte form, and counts of sectors.

use crate::board::Board;
use crate::call::{Call, Said, Stated};
use crate::lent::{self, odd_record, room, with_sectors, with_word};
use crate::numbers::Numbers;
use crate::{orders, random};
use second::fields::LATER;

/// The editions, and numbers that name none: next to them, and with their bits.
const EDITIONS: [u8; 10] = [0, 1, LATER, 3, 4, 6, 0x12, 0x80, 0x82, 0xFF];

/// Any edition: the later one as often as all other numbers together.
pub fn any(numbers: &mut Numbers) -> u8 {
    match numbers.below(8) {
        0 => numbers.byte(),
        1 => numbers.pick(&[3, 0x82, 0xFF]),
        2 => 0,
        3 => 1,
        _ => LATER,
    }
}

/// A command of the 32-byte form with these flags, features and count; all its
/// other bytes that are read differ, and those that are not read too.
pub fn command(first: u8, second: u8, numbers: (u16, u16), control: u8) -> Vec<u8> {
    let mut command: Vec<u8> = (0xC0..0xE0).collect();
    command[0] = 0x7F;
    command[1] = control;
    command[7..10].copy_from_slice(&[0x18, 0x1F, 0xF0]);
    command[10..12].copy_from_slice(&[first, second]);
    command[20..22].copy_from_slice(&numbers.0.to_be_bytes());
    command[22..24].copy_from_slice(&numbers.1.to_be_bytes());
    command
}

/// A command of the form that has so many bytes.
fn of_size(size: usize, first: u8, second: u8, numbers: (u16, u16), control: u8) -> Vec<u8> {
    match size {
        32 => command(first, second, numbers, control),
        _ => orders::command(size == 16, first, second, numbers, control),
    }
}

const SIZES: [usize; 3] = [12, 16, 32];

/// All 256 numbers of an edition: of each form, with T_TYPE and without, with a
/// block of every kind.
pub fn numbers(board: &mut Board) {
    let block = with_sectors(lent::text_block(), 2048);
    let blocks = [block, Vec::new(), lent::damaged_block(), vec![0; 511]];
    for edition in 0..=0xFF {
        for size in SIZES {
            for flags in [0x0E, 0x1E] {
                let command = of_size(size, 0x08, flags, (1, 1), 0);
                for block in &blocks {
                    let call = lent::submit(&command, u32::MAX).piece(2, block.clone());
                    board.call(&call.edition(edition));
                }
            }
        }
    }
}

/// Each byte of the 32-byte form alone and missing, with EXTEND and without, in
/// both editions, over nothing and over an order; resets too.
pub fn fields(board: &mut Board) {
    for first in [0x06, 0x07, 0x08, 0x09, 0x00, 0x03, 0x1E, 0x1F] {
        let second = if first >> 1 == 4 { 0x0E } else { 0x00 };
        let whole = command(first, second, (0x0201, 0x0403), 0);
        for at in 1..32 {
            for value in [0x00, 0x01, 0x04, 0x55, 0x80, 0xFB, 0xFF] {
                let mut one = whole.clone();
                one[at] = value;
                for state in [0, 1] {
                    let call = lent::submit(&one, u32::MAX).record(odd_record(state, 1, 1));
                    board.call(&call.clone().edition(LATER));
                    board.call(&call);
                }
            }
        }
    }
}

/// Every value of bytes 10 and 11, with and without NACA.
pub fn flags(board: &mut Board) {
    for bits in 0..=0xFFFF_u32 {
        let [first, second] = (bits as u16).to_be_bytes();
        let control = if bits % 3 == 0 { 0xFB } else { 0x00 };
        let command = command(first, second, (0x0201, 0x0403), control);
        board.call(&lent::submit(&command, u32::MAX).edition(LATER));
    }
    for control in 0..=0xFF {
        let command = command(0x08, 0x0E, (1, 1), control);
        for edition in EDITIONS {
            board.call(&lent::submit(&command, u32::MAX).edition(edition));
        }
    }
}

/// Commands of every number of bytes, of each form and others, with bytes 7 to
/// 9 right and wrong, in every edition; and blocks of every size.
pub fn sizes(board: &mut Board) {
    let mut wrong = command(0x08, 0x0E, (1, 1), 0x04);
    wrong[9] = 0;
    let other = [vec![0x7E; 32], vec![0xFF; 32], wrong];
    let served = SIZES.map(|size| of_size(size, 0x08, 0x1E, (1, 1), 0));
    for whole in served.iter().chain(&other) {
        for size in 0..=40 {
            let mut command = whole.clone();
            command.resize(size, 0xFF);
            for edition in EDITIONS {
                board.call(&lent::submit(&command, u32::MAX).edition(edition));
            }
        }
        for size in [0, 1, 11, 256, 510, 511, 512, 513, 514, 1024] {
            for edition in EDITIONS {
                let call = lent::submit(whole, u32::MAX).piece(2, vec![0x5A; size]);
                board.call(&call.edition(edition));
            }
        }
    }
}

/// Bytes 7 to 9 with every value of each, and two or three of them wrong, with
/// NACA and protocols that are not served.
pub fn actions(board: &mut Board) {
    for (first, control) in [
        (0x08, 0),
        (0x08, 4),
        (0x04, 0),
        (0x04, 4),
        (0x1E, 0),
        (0x02, 0),
    ] {
        let whole = command(first, 0x0E, (1, 1), control);
        let mut ask = |bytes: [u8; 3]| {
            let mut command = whole.clone();
            command[7..10].copy_from_slice(&bytes);
            for state in [0, 1] {
                let call = lent::submit(&command, u32::MAX).record(odd_record(state, 0, 0));
                board.call(&call.edition(LATER));
            }
        };
        for value in 0..=0xFF {
            ask([value, 0x1F, 0xF0]);
            ask([0x18, value, 0xF0]);
            ask([0x18, 0x1F, value]);
            ask([value, value, value]);
        }
        ask([0x18, 0xF0, 0x1F]);
        ask([0x1F, 0xF0, 0x18]);
        ask([0x19, 0x1F, 0xF1]);
    }
}

/// Numbers of words that a sector has: none, one, the usual ones, around 16, 31
/// and 32 bits, of unlike halves, and such that 65,535 sectors have a little
/// over 2 to the power 48 bytes.
const WORDS: [u32; 21] = [
    0,
    1,
    2,
    255,
    256,
    257,
    260,
    264,
    2048,
    0x7FFF,
    0x8000,
    0xFFFF,
    0x0001_0000,
    0x0001_0002,
    0x0123_4567,
    0x7FFF_FFFF,
    0x8000_0000,
    0x8000_0100,
    0x8000_8001,
    0xFFFF_FFFE,
    u32::MAX,
];

/// Every word 106, and every size of a sector by counts of bytes and of blocks,
/// with T_TYPE and without, of each form in both editions.
pub fn sectors(board: &mut Board) {
    let (whole, spare) = (command(0x08, 0x1E, (0, 1), 0), lent::text_block());
    for word in 0..=0xFFFF {
        let block = with_word(with_sectors(spare.clone(), 2048), 106, word);
        let call = lent::submit(&whole, u32::MAX).piece(2, block);
        board.call(&call.edition(LATER));
    }
    for words in WORDS {
        for word in [
            0x5000, 0x4000, 0x1000, 0x9000, 0xD000, 0x6000, 0x7FFF, 0x0000,
        ] {
            let block = with_word(with_sectors(spare.clone(), words), 106, word);
            for second in (0x08..0x20).filter(|second| second & 0x08 != 0) {
                for size in SIZES {
                    let command = of_size(size, 0x08, second, (1, 2), 0);
                    let call = lent::submit(&command, u32::MAX).piece(2, block.clone());
                    board.call(&call.clone().edition(LATER));
                    board.call(&call.edition(1));
                }
            }
        }
    }
}

/// Counts of one and two bytes by sizes of sectors, with declared lengths next
/// to the product, to what is left of it in 32 bits, and at both ends.
pub fn products(board: &mut Board) {
    for words in WORDS {
        let block = with_sectors(lent::text_block(), words);
        for count in [
            0, 1, 2, 3, 127, 128, 255, 256, 257, 0x8000, 0xFFFE, 0xFFFF_u16,
        ] {
            let exact = 2 * u128::from(words) * u128::from(count);
            let kept = exact as u32;
            let near = |base: u32| [base.wrapping_sub(1), base, base.wrapping_add(1)];
            let declared = near(kept).into_iter().chain(near(kept / 2));
            for declared in declared.chain([0, 512, u32::MAX - 1, u32::MAX]) {
                for (size, first) in [(12, 0x08), (16, 0x09), (32, 0x08), (32, 0x09)] {
                    for (second, pair) in [(0x1E, (7, count)), (0x1D, (count, 7))] {
                        let command = of_size(size, first, second, pair, 0);
                        let call = lent::submit(&command, declared).piece(2, block.clone());
                        board.call(&call.edition(LATER));
                    }
                }
            }
        }
    }
}

/// Commands of the 32-byte form that refuse by every number, and of the others
/// with T_TYPE, by blocks and none, damaged and of wrong sizes.
pub fn refusals(board: &mut Board) {
    let block = with_sectors(lent::text_block(), 2048);
    let blocks = [Vec::new(), block, lent::damaged_block(), vec![0; 511]];
    for command in refused_commands() {
        for state in [0, 1, 2] {
            for (declared, sense) in [(0, 22), (511, 22), (4096, 22), (4095, 21)] {
                for block in &blocks {
                    let call = lent::submit(&command, declared)
                        .record(odd_record(state, 0, 0))
                        .piece(2, block.clone())
                        .piece(3, room(sense));
                    board.call(&call.clone().edition(LATER));
                    board.call(&call);
                }
            }
        }
    }
}

fn refused_commands() -> Vec<Vec<u8>> {
    let mut all = vec![vec![], vec![0x7F], vec![0x7F; 31], vec![0x7F; 32]];
    all.extend([vec![0x12; 32], vec![0x85; 15]]);
    for size in SIZES {
        for protocol in [0, 2, 3, 4, 5, 6, 10, 15] {
            for second in [
                0x00, 0x10, 0x0E, 0x1E, 0x16, 0x1A, 0x1D, 0x1F, 0x1C, 0x0A, 0x06,
            ] {
                for count in [0, 1] {
                    for control in [0x00, 0x04] {
                        let pair = (count, count);
                        let command = of_size(size, protocol << 1, second, pair, control);
                        let mut wrong = command.clone();
                        wrong[8] ^= 0x01;
                        all.extend([command, wrong]);
                    }
                }
            }
        }
    }
    all
}

/// Random commands of the older forms without T_TYPE, each in the first edition
/// without a block and in the later one with one: whether all that comes back
/// and all that is lent but the block are the same.
pub fn both(board: &mut Board, seed: u64, real: &[Vec<u8>]) -> bool {
    let mut numbers = Numbers::new(seed);
    let mut taken = 0;
    for _ in 0..30_000 {
        let mut call = random::submit(&mut numbers, real);
        let command = &mut call.pieces[0];
        if command[0] == 0x7F {
            command[0] = 0x85;
        }
        command[2] &= 0xEF;
        let block = with_sectors(numbers.bytes(512), numbers.next() as u32);
        let edition = numbers.pick(&[0, 1, 3, 0xFF]);
        let first = left(board, call.clone().edition(edition).piece(2, Vec::new()));
        let later = left(board, call.edition(LATER).piece(2, lent::closed(block)));
        if first.0 != later.0 {
            return false;
        }
        taken += u32::from(first.1.number == 0);
    }
    taken > 1_000
}

/// All that the second program leaves of a call but the block, and what it
/// said. The board is asked the same.
fn left(board: &mut Board, call: Call) -> (Vec<u8>, Said) {
    let mut left = Vec::new();
    let (form, edition) = (0, call.edition.unwrap_or(0));
    let said = call.answer(Stated { form, edition }, &mut left);
    board.call(&call.clone().form(form));
    let (block, sense) = (call.pieces[2].len(), call.pieces[3].len());
    let sense = left.split_off(left.len() - sense);
    left.truncate(left.len() - block);
    left.drain(..4); // how long the answer is
    left.extend(sense);
    (left, said)
}
