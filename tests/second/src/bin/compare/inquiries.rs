//! Inputs of INQUIRY.

use crate::board::Board;
use crate::lent::{self, packet, room};

/// Every way to be refused, and the four pages and standard data served.
pub fn commands() -> Vec<Vec<u8>> {
    let mut all = vec![vec![], vec![0x12], vec![0x12, 0x03, 0x00, 0x00, 0xFF]];
    all.extend([vec![0x00], vec![0x13; 6], vec![0xA1; 12], vec![0x85, 0x01]]);
    for byte_1 in 0..4 {
        for page in [0x00, 0x80, 0x83, 0x89, 0x01, 0xB0] {
            for control in [0x00, 0x04, 0xFB] {
                all.push(vec![0x12, byte_1, page, 0x02, 0x58, control]);
            }
        }
    }
    all
}

/// Every refusal alone, and every two or more that can apply together.
pub fn refusals(board: &mut Board) {
    let replies: [&[u8]; 3] = [&[], &[5, 0, 9, 2, 0x80, 0x80], &[5, 0, 9, 2, 0x80, 0x90]];
    let signatures = [lent::plain_signature(), lent::packet_signature()];
    let sizes = [(28, 22), (28, 21), (27, 26), (29, 0)];
    let whole = lent::holey_block();
    let blocks = [&whole[..], &[], &whole[..511], &whole[..1]];
    for command in commands() {
        for block in blocks.into_iter().chain([&lent::damaged_block()[..]]) {
            for signature in signatures.iter().chain([&vec![0x14; 19]]) {
                for reply in replies {
                    for space in [0, 7, 600] {
                        for (texts, sense) in sizes {
                            let call = lent::inquiry(&command)
                                .piece(1, block.to_vec())
                                .piece(2, signature.clone())
                                .piece(3, vec![0x33; texts])
                                .piece(4, reply.to_vec())
                                .piece(6, room(space))
                                .piece(7, room(sense));
                            board.call(&call);
                        }
                    }
                }
            }
        }
    }
}

/// Sizes 0, 1, size - 1, size and size + 1 of each lent piece.
pub fn sizes(board: &mut Board) {
    let reply = [0x05, 0x00, 0x00, 0x02, 0x00, 0x80];
    let edges: [&[usize]; 8] = [
        &[0, 1, 2, 3, 4, 5, 6, 7, 12, 16],
        &[0, 1, 2, 510, 511, 512, 513, 1024],
        &[0, 1, 5, 6, 7, 19, 20, 21, 40],
        &[0, 1, 27, 28, 29, 56],
        &[0, 1, 3, 4, 5, 6, 7, 255],
        &[0, 7, 8, 9],
        &[0, 1, 7, 8, 9, 571, 572, 573],
        &[0, 1, 7, 8, 9, 20, 21, 22, 23, 64],
    ];
    for page in [0x00, 0x80, 0x83, 0x89] {
        for (at, sizes) in edges.iter().enumerate() {
            for (other, other_sizes) in edges.iter().enumerate() {
                for &size in *sizes {
                    for &other_size in *other_sizes {
                        let mut call = lent::inquiry_page(page, 0xFFFF);
                        if page == 0x00 {
                            call = packet(call, &reply);
                        }
                        call.pieces[at].resize(size, 0x2E);
                        call.pieces[other].resize(other_size, 0x2F);
                        board.call(&call);
                    }
                }
            }
        }
    }
}

/// Every page of every kind of block, cut at every allocation length near its
/// edges, into room of n - 1, n and n + 1 bytes.
pub fn cuts(board: &mut Board) {
    let pages: [(u8, u8, usize); 7] = [
        (0, 0x00, 36),
        (1, 0x00, 8),
        (1, 0x80, 24),
        (1, 0x83, 16),
        (1, 0x83, 76),
        (1, 0x89, 572),
        (1, 0x89, 60),
    ];
    for block in lent::blocks() {
        for (evpd, page, size) in pages {
            for allocation in allocations(size) {
                let [high, low] = (allocation as u16).to_be_bytes();
                let call = lent::inquiry(&[0x12, evpd, page, high, low, 0]).piece(1, block.clone());
                let n = allocation.min(size);
                for space in [n.saturating_sub(1), n, n + 1] {
                    board.call(&call.clone().piece(6, room(space)));
                }
            }
        }
    }
}

fn allocations(size: usize) -> Vec<usize> {
    let mut all: Vec<usize> = (0..10.min(size)).collect();
    all.extend([size - 1, size, size + 1, 255, 256, 0x0300, 0xFFFF]);
    all
}

/// Every allocation length up to 600, and high ones, of the longest pages.
pub fn allocation_lengths(board: &mut Board) {
    for allocation in (0..600).chain([0x7FFF, 0x8000, 0xFF00, 0xFFFF]) {
        for block in [Vec::new(), lent::holey_block()] {
            let call = lent::inquiry_page(0x89, allocation).piece(1, block);
            board.call(&packet(call.clone(), &[]));
            board.call(&call);
            board.call(&call.piece(0, vec![0x12, 1, 0x83, 0, allocation as u8, 0]));
        }
    }
}

/// All pages by all bits of byte 1 and control, plain and packet, with and
/// without a block.
pub fn all_pages(board: &mut Board) {
    let reply: Vec<u8> = (0..40).collect();
    for page in 0..=0xFF {
        for byte_1 in [0x00, 0x01, 0x02, 0x03, 0xFC, 0xFD, 0xFE, 0xFF] {
            for control in [0x00, 0x04, 0xFB] {
                for block in [Vec::new(), lent::text_block()] {
                    let command = [0x12, byte_1, page, 0x00, 0x20, control];
                    let call = lent::inquiry(&command).piece(1, block);
                    let call = call.piece(6, room(40));
                    board.call(&packet(call.clone(), &reply));
                    board.call(&call);
                }
            }
        }
    }
}

/// Standard data of every firmware text that is made of letters, spaces and
/// zero bytes, and of texts with a byte that is next to one of these.
pub fn revisions(board: &mut Board) {
    let standard = [0x12, 0, 0, 0, 36, 0];
    for text in 0..3_usize.pow(8) {
        let mut block = lent::text_block();
        for at in 0..8 {
            let kinds = [0x41 + at as u8, 0x20, 0x00];
            block[46 + at] = kinds[text / 3_usize.pow(at as u32) % 3];
        }
        board.call(&lent::inquiry(&standard).piece(1, block));
    }
    for at in 46..54 {
        for value in [0x01, 0x1F, 0x21, 0x2F, 0x30, 0xA0, 0xFF] {
            for rest in [0x20, 0x00] {
                let mut block = lent::text_block();
                block[46..54].fill(rest);
                block[at] = value;
                board.call(&lent::inquiry(&standard).piece(1, block));
            }
        }
    }
}

/// Every sum of a block with A5h in byte 510, by each page, of a plain drive
/// and of a packet drive; other bytes in its place; and A5h in byte 511 alone.
pub fn damaged(board: &mut Board) {
    let reply = [0x05, 0x00, 0x00, 0x01, 0x80];
    let mut blocks = Vec::new();
    for last in 0..=0xFF {
        let mut block = lent::closed(lent::text_block());
        block[511] = last;
        blocks.push(block);
    }
    for mark in [0x00, 0x25, 0x5A, 0xA4, 0xA6, 0xAD, 0xFF] {
        for last in [0x00, 0x01, 0xA5, 0xFF] {
            let mut block = lent::text_block();
            block[510..].copy_from_slice(&[mark, last]);
            blocks.push(block);
        }
    }
    for block in blocks {
        for (evpd, page) in [
            (0, 0x00),
            (1, 0x00),
            (1, 0x80),
            (1, 0x83),
            (1, 0x89),
            (1, 0xB0),
        ] {
            let call = lent::inquiry(&[0x12, evpd, page, 0x02, 0x3C, 0]).piece(1, block.clone());
            board.call(&packet(call.clone(), &reply));
            board.call(&call);
        }
    }
}

/// The type byte and removable bit: every value of word 0.
pub fn first_word(board: &mut Board) {
    for bits in (0..=0xFFFF_u16).step_by(5).chain(0..256) {
        let mut block = lent::text_block();
        block[..2].copy_from_slice(&bits.to_le_bytes());
        let pages: [[u8; 6]; 2] = [[0x12, 1, 0x89, 0, 8, 0], [0x12, 0, 0, 0, 8, 0]];
        for command in pages {
            let call = lent::inquiry(&command).piece(1, block.clone());
            let call = call.piece(6, room(9));
            board.call(&packet(call.clone(), &[1, 2, 3]));
            board.call(&call);
        }
    }
}

/// Signatures that are near to a packet drive's.
pub fn signatures(board: &mut Board) {
    let reply = [0x05, 0x00, 0x00, 0x01, 0x80];
    for at in 0..20 {
        for value in 0..=0xFF {
            let mut signature = lent::packet_signature();
            signature[at] = value;
            for page in [0x00, 0x89] {
                let call = packet(lent::inquiry_page(page, 64), &reply);
                let call = call.piece(2, signature.clone()).piece(6, room(65));
                board.call(&call);
            }
        }
    }
}

/// What passes through: replies of all sizes by allocation lengths.
pub fn passed(board: &mut Board) {
    for size in [
        0, 1, 5, 35, 36, 37, 255, 256, 257, 0xFFFF, 0x1_0000, 0x1_0001,
    ] {
        let reply: Vec<u8> = (0..size).map(|at| (at % 253) as u8).collect();
        for allocation in [0, 1, 5, 36, 255, 256, 257, 0xFFFE, 0xFFFF_u16] {
            for (byte_1, page) in [(0, 0), (0, 9), (1, 0x80), (1, 0x83), (2, 0), (3, 0x89)] {
                let [high, low] = allocation.to_be_bytes();
                let command = [0x12, byte_1, page, high, low, 0x04];
                let call = packet(lent::inquiry(&command), &reply);
                board.call(&call.clone().piece(1, Vec::new()));
                board.call(&call.piece(6, room(0)));
            }
        }
    }
}

fn listed(codes: &[u8], after: &[u8]) -> Vec<u8> {
    let mut reply = vec![0x05, 0x00, 0x77, codes.len() as u8];
    reply.extend(codes);
    reply.extend(after);
    reply
}

/// Page 00h of packet drives: 89h at every place, absent and present.
pub fn lists(board: &mut Board) {
    for count in (0..12).chain([127, 137, 138, 253, 254, 255]) {
        for first in [0_usize, 1, 0x80, 0x85, 0x89, 0x8A, 0xF0] {
            let codes: Vec<u8> = (first..256).take(count).map(|code| code as u8).collect();
            let without: Vec<u8> = codes.iter().copied().filter(|&code| code != 0x89).collect();
            for codes in [codes, without] {
                for after in [&[][..], &[0x00, 0xFF][..]] {
                    ask_list(board, &listed(&codes, after));
                }
            }
        }
    }
    for missing in 0..=0xFF {
        let codes: Vec<u8> = (0..=0xFF).filter(|&code| code != missing).collect();
        ask_list(board, &listed(&codes, &[]));
        for second in [0x00, 0x88, 0x89, 0x8A, 0xFF] {
            let fewer: Vec<u8> = codes.iter().copied().filter(|&c| c != second).collect();
            ask_list(board, &listed(&fewer, &[]));
        }
    }
}

/// Asks for page 00h with this reply: whole, cut, and with too little room.
fn ask_list(board: &mut Board, reply: &[u8]) {
    let size = 4 + reply.get(3).map_or(0, |&count| usize::from(count));
    for allocation in [0, 3, 4, 5, size - 1, size, size + 1, 0xFFFF] {
        let call = packet(lent::inquiry_page(0x00, allocation as u16), reply);
        board.call(&call.clone().piece(6, room(262)));
        let n = allocation.min(size + 1);
        for space in [n.saturating_sub(1), n] {
            board.call(&call.clone().piece(6, room(space)).piece(1, vec![]));
        }
    }
}

/// Page 00h of packet drives: every kind of unusable list.
pub fn unusable_lists(board: &mut Board) {
    let good = listed(&[0x00, 0x80, 0x83, 0x90, 0xB0], &[]);
    for size in 0..=good.len() + 1 {
        let mut cut = good.clone();
        cut.resize(size, 0xC0);
        ask_list(board, &cut);
    }
    for at in 0..good.len() {
        for value in 0..=0xFF {
            let mut damaged = good.clone();
            damaged[at] = value;
            board.call(&packet(lent::inquiry_page(0x00, 255), &damaged));
        }
    }
    for equal in 0..16_u8 {
        let mut codes: Vec<u8> = (0x80..0x90).collect();
        codes[usize::from(equal)] = 0x80 + equal.saturating_sub(1);
        ask_list(board, &listed(&codes, &[]));
        codes[usize::from(equal)] = 0x89;
        ask_list(board, &listed(&codes, &[]));
    }
    let rising: Vec<u8> = (0..=0xFF).collect();
    for count in [253, 254, 255] {
        for space in [count, count + 3] {
            let mut reply = listed(&rising[..count], &[]);
            reply.truncate(space);
            ask_list(board, &reply);
        }
    }
}
