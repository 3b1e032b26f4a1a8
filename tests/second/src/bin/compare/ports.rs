//! Inputs of page 83h with ports: of INQUIRY, the writer and the reader.

use crate::board::Board;
use crate::call::Call;
use crate::inquiries;
use crate::lent::{self, near, packet, room, ADDRESS};
use second::Ports;

/// No port, the number of each alone, the address alone, and both.
fn choices() -> [Ports; 6] {
    [(0, 0), (1, 1), (1, 2), (2, 0), (3, 1), (3, 2)]
        .map(|(chosen, relative)| Ports { chosen, relative })
}

/// Every choice for a drive with a name and for drives without, cut at every
/// allocation length, into room of n - 1, n and n + 1 bytes.
pub fn cuts(board: &mut Board) {
    for block in [lent::block_0(), lent::text_block(), lent::holey_block()] {
        for ports in choices() {
            let size = lent::page83_with(&block, ports, &ADDRESS).len();
            for allocation in (0..=100).chain([255, 256, 0x0160, 0x6000, 0xFFFF]) {
                let call = lent::inquiry_page(0x83, allocation).piece(1, block.clone());
                let call = call.ports(ports, &ADDRESS);
                for more in [-1, 0, 1] {
                    let space = near(size.min(allocation.into()), more);
                    board.call(&call.clone().piece(6, room(space)));
                }
            }
        }
    }
}

/// Every choice, also by bits that say nothing, and many numbers of a port: all
/// of which a byte is near to 1 and 2.
pub fn numbers(board: &mut Board) {
    let address = [0x5A; 8];
    for chosen in 0..=0xFFFF {
        let ports = Ports::new(chosen, 1 + chosen % 2);
        board.call(&lent::write(&lent::block_0(), 80).ports(ports, &address));
        board.call(&lent::inquiry_page(0x83, 96).ports(ports, &address));
    }
    for near in 0..=4 {
        for other in 0..=0xFF {
            for relative in [near << 8 | other, other << 8 | near] {
                for chosen in [0, 1, 2, 3, 0xFFFC, 0xFFFF] {
                    ask_number(board, Ports::new(chosen, relative));
                }
            }
        }
    }
}

/// The writer, and INQUIRY of every page, with this number.
fn ask_number(board: &mut Board, ports: Ports) {
    board.call(&lent::write(&lent::text_block(), 96).ports(ports, &ADDRESS));
    for (evpd, page) in [(0, 0x00), (1, 0x00), (1, 0x80), (1, 0x83), (1, 0x89)] {
        let call = lent::inquiry(&[0x12, evpd, page, 0, 96, 0]).ports(ports, &ADDRESS);
        board.call(&packet(call.clone(), &[5, 0, 0, 1, 0x80]));
        board.call(&call);
    }
}

/// Addresses of many sizes, chosen and not, whatever is asked of whatever
/// drive; the large ones are of eight bytes if cut to 8 or 16 bits. And
/// each byte of an address with each value.
pub fn addresses(board: &mut Board) {
    for size in (0..=24).chain([255, 256, 264, 512, 65_544]) {
        for chosen in [0, 1, 2, 3, 0xFFFD, 0xFFFE] {
            let (ports, address) = (Ports::new(chosen, 2), vec![0x3C; size]);
            for command in inquiries::commands() {
                let call = lent::inquiry(&command).ports(ports, &address);
                board.call(&packet(call.clone(), &[5, 0, 0, 1, 0x80]));
                board.call(&call);
            }
            for space in [0, 16, 36, 96] {
                board.call(&lent::write(&lent::block_0(), space).ports(ports, &address));
            }
        }
    }
    for at in 0..8 {
        for value in 0..=0xFF {
            for mut address in [ADDRESS, [0; 8]] {
                address[at] = value;
                let ports = Ports::new(2 + value as u16 % 2, 1);
                board.call(&lent::write(&lent::text_block(), 96).ports(ports, &address));
                board.call(&lent::inquiry_page(0x83, 255).ports(ports, &address));
            }
        }
    }
}

/// Every refusal that the ports have a part in, alone and with the others.
pub fn refusals(board: &mut Board) {
    let blocks = [lent::holey_block(), Vec::new(), vec![0x41; 511]];
    for block in blocks.iter().chain([&lent::damaged_block()]) {
        for chosen in [0, 1, 2, 3, 0xFFFD] {
            for relative in [0, 1, 3] {
                for address in [&ADDRESS[..], &ADDRESS[..7]] {
                    let ports = Ports::new(chosen, relative);
                    for space in [0, 15, 75, 96] {
                        board.call(&lent::write(block, space).ports(ports, address));
                    }
                    for command in inquiries::commands() {
                        let call = lent::inquiry(&command).piece(1, block.clone());
                        ask_refusals(board, call.ports(ports, address));
                    }
                }
            }
        }
    }
}

/// The call as it is, with room and sense room that are too small, of a packet
/// drive, and from an intake.
fn ask_refusals(board: &mut Board, call: Call) {
    board.call(&call.clone().piece(6, room(7)));
    board.call(&call.clone().piece(7, room(21)));
    board.call(&packet(call.clone(), &[5, 0, 9, 2, 0x80, 0x80]));
    for have in [512, 511, 513] {
        board.call(&lent::from_intake(call.clone(), have));
        board.call(&lent::from_intake(call.clone().piece(6, room(7)), have));
    }
    board.call(&call);
}

/// Every kind of block with every choice: written into room around the page's
/// size, and read back.
pub fn written(board: &mut Board) {
    for block in lent::blocks() {
        for ports in choices() {
            for address in [ADDRESS, [0x00; 8], [0xFF; 8]] {
                let page = lent::page83_with(&block, ports, &address);
                for size in [0, 16, 76, page.len() - 1, page.len(), page.len() + 1, 572] {
                    board.call(&lent::write(&block, size).ports(ports, &address));
                }
                board.call(&lent::read(&page));
            }
        }
    }
}

/// Pages with every choice, of a name and of texts.
fn pages() -> Vec<Vec<u8>> {
    let mut pages = Vec::new();
    for block in [lent::block_0(), lent::holey_block()] {
        for ports in choices() {
            pages.push(lent::page83_with(&block, ports, &ADDRESS));
        }
    }
    pages
}

/// Every byte of a page with every choice changed to each value.
pub fn damaged(board: &mut Board) {
    for page in pages() {
        for at in 0..page.len() {
            for value in 0..=0xFF {
                let mut damaged = page.clone();
                damaged[at] = value;
                board.call(&lent::read(&damaged));
            }
        }
    }
}

/// Pages with every choice cut short and extended, the length field as it was
/// and as it would be; and the front of one with the rest of another.
pub fn resized(board: &mut Board) {
    for page in pages() {
        for size in 0..130 {
            for filler in [0x00, 0x20, 0x61] {
                let mut other = page.clone();
                other.resize(size, filler);
                board.call(&lent::read(&other));
                board.call(&lent::read(&counted(other)));
            }
        }
        for other in pages() {
            for cut in 0..=page.len() {
                let mut mixed = page[..cut].to_vec();
                mixed.extend(&other[cut.min(other.len())..]);
                board.call(&lent::read(&mixed));
                board.call(&lent::read(&counted(mixed)));
            }
        }
    }
}

/// The page with the length that its bytes have.
fn counted(mut page: Vec<u8>) -> Vec<u8> {
    if page.len() > 3 {
        page[3] = (page.len() - 4) as u8;
    }
    page
}

/// Descriptors that a page may have, and ones that it must not.
const DESCRIPTORS: [&[u8]; 18] = [
    &[0x61, 0x94, 0x00, 0x04, 0x00, 0x00, 0x00, 0x01],
    &[0x61, 0x94, 0x00, 0x04, 0x00, 0x00, 0x00, 0x02],
    &[0x61, 0x93, 0x00, 0x08, 0x50, 1, 2, 3, 4, 5, 6, 7],
    &[0x61, 0x93, 0x00, 0x08, 0, 0, 0, 0, 0, 0, 0, 0],
    &[0x61, 0x94, 0x00, 0x04, 0x00, 0x00, 0x00, 0x00],
    &[0x61, 0x94, 0x00, 0x04, 0x00, 0x00, 0x00, 0x03],
    &[0x61, 0x94, 0x00, 0x04, 0x00, 0x00, 0x01, 0x00],
    &[0x61, 0x94, 0x00, 0x04, 0x00, 0x01, 0x00, 0x01],
    &[0x61, 0x94, 0x00, 0x02, 0x00, 0x01],
    &[0x01, 0x14, 0x00, 0x04, 0x00, 0x00, 0x00, 0x01],
    &[0x61, 0x84, 0x00, 0x04, 0x00, 0x00, 0x00, 0x01],
    &[0x61, 0x93, 0x00, 0x07, 0x50, 1, 2, 3, 4, 5, 6],
    &[0x01, 0x13, 0x00, 0x08, 0x50, 1, 2, 3, 4, 5, 6, 7],
    &[0x61, 0xA3, 0x00, 0x08, 0x50, 1, 2, 3, 4, 5, 6, 7],
    &[0x01, 0x03, 0x00, 0x08, 0x50, 1, 2, 3, 4, 5, 6, 7],
    &[0x00],
    &[0x61, 0x94],
    &[],
];

/// Names with up to three descriptors behind them, right and wrong, in every
/// order and doubled; and before the name.
pub fn sequences(board: &mut Board) {
    for name in [lent::block_0(), lent::holey_block()] {
        let page = lent::page83(&name);
        for first in DESCRIPTORS {
            board.call(&lent::read(&counted(
                [&page[..4], first, &page[4..]].concat(),
            )));
            for second in DESCRIPTORS {
                for third in DESCRIPTORS {
                    let long = [&page[..], first, second, third].concat();
                    board.call(&lent::read(&long));
                    board.call(&lent::read(&counted(long)));
                }
            }
        }
    }
}

/// What ports tell of a drive: its number and address, where chosen.
pub fn told(ports: Ports, address: [u8; 8]) -> (Option<u16>, Option<[u8; 8]>) {
    let relative = (ports.chosen & 1 != 0).then_some(ports.relative);
    let sas = (ports.chosen & 2 != 0).then_some(address);
    (relative, sas)
}
