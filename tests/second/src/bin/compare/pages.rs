//! Inputs of the writer and the reader of page 83h.

use crate::board::Board;
use crate::lent;

/// Room and block sizes at their edges, for every kind of block.
pub fn written(board: &mut Board) {
    for block in lent::blocks() {
        for size in [0, 1, 4, 15, 16, 17, 36, 75, 76, 77, 572] {
            board.call(&lent::write(&block, size));
        }
    }
    for size in [0, 1, 94, 224, 511, 513, 1024] {
        for room in [0, 16, 76, 100] {
            board.call(&lent::write(&vec![0x41; size], room));
        }
    }
}

/// Every byte of a block, changed: only names, models and serials matter.
pub fn changed_blocks(board: &mut Board) {
    let bases = [lent::zero_block(), lent::text_block(), lent::block_0()];
    for base in bases.iter().chain([&lent::junk_block()]) {
        for at in 0..512 {
            for value in [0x00, 0x01, 0x20, 0x41, 0x80, 0xFF] {
                let mut block = base.clone();
                block[at] = value;
                board.call(&lent::write(&block, 80));
            }
        }
    }
}

/// Every value of word 87, with a name and with zeros in its place; and what
/// would say that there is a name, in the words around it.
pub fn name_words(board: &mut Board) {
    for base in [lent::block_0(), lent::text_block()] {
        for value in 0..=0xFFFF {
            let block = lent::with_word(base.clone(), 87, value);
            board.call(&lent::write(&block, 80));
        }
    }
    for w in 80..96 {
        for value in [0x4100, 0x0041, 0x4141, 0x0000, 0xFFFF] {
            for said in [0x4100, 0x0000] {
                let block = lent::with_word(lent::block_0(), 87, said);
                let block = lent::with_word(block, w, value);
                board.call(&lent::inquiry_page(0x83, 255).piece(1, block));
            }
        }
    }
}

/// Each bit of closed blocks changed alone, and two bits; room that is too
/// short for the page, or for any.
pub fn damaged_blocks(board: &mut Board) {
    for base in [
        lent::closed(lent::text_block()),
        lent::closed(lent::block_0()),
    ] {
        for bit in 0..4096 {
            let mut block = base.clone();
            block[bit / 8] ^= 1 << (bit % 8);
            board.call(&lent::write(&block, 80));
            block[(bit / 8 + 7) % 512] ^= 1 << (bit % 8);
            board.call(&lent::write(&block, 80));
        }
    }
    for size in [0, 15, 16, 75, 76] {
        board.call(&lent::write(&lent::damaged_block(), size));
    }
}

/// The pages whose damage is tried: of a name, and of texts.
fn damaged_ones() -> Vec<Vec<u8>> {
    let mut one_bit = lent::with_word(lent::text_block(), 87, lent::NAMED);
    one_bit[223] = 0x80;
    let all = [lent::block_0(), one_bit, lent::holey_block()];
    let mut pages: Vec<_> = all.iter().map(|block| lent::page83(block)).collect();
    pages.push(lent::page83(&lent::zero_block()));
    pages
}

/// Written pages read back, each single byte of them changed to each value.
pub fn damaged(board: &mut Board) {
    for page in damaged_ones() {
        board.call(&lent::read(&page));
        for at in 0..page.len() {
            for value in 0..=0xFF {
                let mut damaged = page.clone();
                damaged[at] = value;
                board.call(&lent::read(&damaged));
            }
        }
    }
}

/// Written pages cut short and extended, and pages of one form with the head
/// or the length of the other.
pub fn resized(board: &mut Board) {
    for page in damaged_ones() {
        for size in 0..160 {
            for filler in [0x00, 0x20, 0x83] {
                let mut other = page.clone();
                other.resize(size, filler);
                board.call(&lent::read(&other));
                if size > 3 {
                    other[3] = (size - 4) as u8;
                    board.call(&lent::read(&other));
                }
            }
        }
        for other in damaged_ones() {
            for cut in 0..=page.len() {
                let mut mixed = page[..cut].to_vec();
                mixed.extend(&other[cut.min(other.len())..]);
                board.call(&lent::read(&mixed));
            }
        }
    }
    let mut long = lent::page83(&lent::block_0());
    long.resize(70_000, 0);
    board.call(&lent::read(&long));
}

/// Every kind of block written and the page read back.
pub fn read_back(board: &mut Board) {
    for block in lent::blocks() {
        board.call(&lent::write(&block, 76));
        board.call(&lent::read(&lent::page83(&block)));
    }
    for base in [lent::text_block(), lent::block_0()] {
        for at in (20..94).chain(216..224) {
            for value in 0..=0xFF {
                let mut block = base.clone();
                block[at] = value;
                board.call(&lent::read(&lent::page83(&block)));
            }
        }
    }
}
