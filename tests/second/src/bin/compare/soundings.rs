//! The soundings (RULES 13), and the blocks of real drives.

use crate::board::Board;
use crate::call::{Call, EMPTY};
use crate::lent::{self, packet, room};
use crate::rolls;
use second::sense::DESCRIPTOR;

/// C1 to C13, with no form stated and in each form.
pub fn numbered(board: &mut Board) {
    [0, 1, 2].iter().for_each(|&form| in_form(board, form));
}

fn in_form(board: &mut Board, form: u8) {
    let mut ask = |call: Call| board.call(&call.form(form)).record;
    for allocation in [255, 5, 0] {
        let call = lent::inquiry_page(0x83, allocation);
        ask(call.piece(2, vec![0; 20]));
    }
    ask(lent::inquiry(&[0x12, 0x00, 0x80, 0x00, 0xFF, 0x00]));
    ask(lent::inquiry(&[0x12, 0x01, 0xB0, 0x00, 0xFF, 0x00]));
    let c6 = [0xA1, 0x08, 0x0E, 0, 1, 0, 0, 0, 0, 0xEC, 0, 0];
    ask(lent::submit(&c6, 512));
    ask(lent::submit(&c6, 511));
    for (at, value) in [(2, 0x06), (2, 0x0C), (4, 0x00), (1, 0x04)] {
        let mut command = c6;
        command[at] = value;
        ask(lent::submit(&command, 512));
    }
    let mut c12 = vec![0x85, 0x06, 0x20];
    c12.extend([0; 11]);
    c12.extend([0xE5, 0x00]);
    let record = ask(lent::submit(&c12, 0));
    let call = lent::complete(record, 0x50);
    ask(call.piece(0, vec![0, 0, 0xFF, 0, 0, 0, 0, 0, 0, 0, 0x50]));
    ask(lent::inquiry(&[]));
    ask(lent::submit(&[], 0));
}

/// The other soundings.
pub fn others(board: &mut Board) {
    board.call(&Call::new(EMPTY, Vec::new()));
    for size in [571, 572] {
        for allocation in [571, 572, 573, 0xFFFF] {
            let call = lent::inquiry_page(0x89, allocation).piece(6, room(size));
            board.call(&packet(call.clone(), &[]));
            board.call(&call);
        }
    }
    for blocks in [0, 64, 65] {
        board.call(&lent::roll(&vec![0x41; 512 * blocks], 65));
    }
    board.call(&lent::roll(&rolls::sample(), 64));
    let mut longest = vec![0x85, 0x09, 0x0E, 0, 0, 0xFF, 0xFF];
    longest.extend([0; 9]);
    for declared in [33_553_919, 33_553_920, 33_553_921, u32::MAX] {
        board.call(&lent::submit(&longest, declared));
    }
}

/// Published in the sources of sg3_utils 1.46: the registers of a status
/// return descriptor, and the name of a disk's page 83h.
pub fn published(board: &mut Board) {
    let mut command = vec![0x85, 0x07, 0x20];
    command.extend([0; 13]);
    let record = board.call(&lent::submit(&command, 0)).record;
    let registers = [
        0x00, 0x11, 0x22, 0x66, 0x33, 0x77, 0x44, 0x88, 0x55, 0x01, 0x02,
    ];
    let call = lent::complete(record, 0x02).piece(0, registers.to_vec());
    board.call(&call.form(DESCRIPTOR));
    let mut block = lent::block_0();
    block[216..224].copy_from_slice(&[0x00, 0x50, 0x00, 0xC5, 0x11, 0x30, 0x2B, 0xCB]);
    board.call(&lent::inquiry_page(0x83, 255).piece(1, block));
}

/// Every page of every real drive, its page 83h read back and damaged, and
/// the rolls of all of them.
pub fn real_drives(board: &mut Board, blocks: &[Vec<u8>]) {
    for block in blocks {
        for (evpd, page) in [(0, 0x00), (1, 0x00), (1, 0x80), (1, 0x83), (1, 0x89)] {
            for allocation in [0, 4, 5, 16, 36, 76, 96, 255] {
                for high in [0, 2] {
                    let command = [0x12, evpd, page, high, allocation, 0];
                    let call = lent::inquiry(&command).piece(1, block.clone());
                    board.call(&packet(call.clone(), &[5, 0, 0, 1, 0x80]));
                    board.call(&call);
                }
            }
        }
        let page = lent::page83(block);
        board.call(&lent::write(block, page.len()));
        board.call(&lent::write(block, page.len() - 1));
        for at in 0..page.len() {
            for bit in 0..8 {
                let mut damaged = page.clone();
                damaged[at] ^= 1 << bit;
                board.call(&lent::read(&damaged));
            }
            board.call(&lent::read(&page[..at]));
        }
        board.call(&lent::read(&page));
    }
    for first in 0..=blocks.len() {
        let rolled = [&blocks[first..], blocks].concat();
        board.call(&lent::roll(&rolled.concat(), rolled.len()));
    }
}
