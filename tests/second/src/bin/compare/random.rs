//! Seeded random and damaged inputs of every function.

use crate::board::Board;
use crate::builds;
use crate::call::{sixteen_bits, Bytes, Call, BUILD, CENSUS_FEED, COMPLETE, INQUIRY};
use crate::captures;
use crate::censuses;
use crate::editions;
use crate::lent;
use crate::numbers::Numbers;
use second::{Intake, Ports};

/// So many calls over all functions.
pub fn calls(board: &mut Board, seed: u64, count: u64, real: &[Vec<u8>]) {
    let mut numbers = Numbers::new(seed);
    let mut known = lent::blocks();
    known.extend(real.iter().cloned());
    for _ in 0..count {
        if board.is_done() {
            return;
        }
        let mut call = match numbers.below(134) {
            0..=39 => submit(&mut numbers, &known),
            40..=55 => complete(&mut numbers),
            56..=76 => inquiry(&mut numbers, &known),
            77..=86 => read(&mut numbers, &known),
            87..=97 => write(&mut numbers, &known),
            98..=99 => roll(&mut numbers, &known),
            100..=105 => take(&mut numbers, &known),
            106..=108 => intake_inquiry(&mut numbers, &known),
            109 => intake_roll(&mut numbers, &known),
            110..=115 => feed(&mut numbers, &known),
            116..=125 => build(&mut numbers),
            _ => {
                let block = block(&mut numbers, &known);
                captures::random(&mut numbers, &block)
            }
        };
        if numbers.once_in(3) {
            damage(&mut call, &mut numbers);
        }
        board.call(&call);
    }
}

/// Random requests, each asked at two allocation lengths: whether the lesser
/// always shows the first part of what the greater shows.
pub fn cut_again(board: &mut Board, seed: u64, real: &[Vec<u8>]) -> bool {
    let mut numbers = Numbers::new(seed);
    let mut known = lent::blocks();
    known.extend(real.iter().cloned());
    let mut agreed = 0;
    for _ in 0..20_000 {
        let mut call = inquiry(&mut numbers, &known);
        let mut lengths = [numbers.below(600) as u16, numbers.below(600) as u16];
        lengths.sort_unstable();
        let lesser = shown(board, &mut call, lengths[0]);
        let greater = shown(board, &mut call, lengths[1]);
        if let (Some(lesser), Some(greater)) = (lesser, greater) {
            if lesser != greater[..greater.len().min(lengths[0].into())] {
                return false;
            }
            agreed += 1;
        }
    }
    agreed > 1_000
}

/// What the second program shows of a request with an allocation length, where
/// it accepts it; the board is asked the same.
fn shown(board: &mut Board, call: &mut Call, length: u16) -> Option<Vec<u8>> {
    call.pieces[0][3..5].copy_from_slice(&length.to_be_bytes());
    board.call(call);
    let lent = &call.pieces;
    let (mut room, mut sense) = (lent[6].clone(), lent[7].clone());
    let answer = call.inquiry(&lent[0], &lent[1], 0, &mut room, &mut sense);
    let from = if answer.shown == 0 { &lent[4] } else { &room };
    (answer.number == 0).then(|| from[..answer.count].to_vec())
}

/// Changes, cuts or extends one of the lent pieces. A census has one size; the
/// builder is lent none, and its order is changed.
fn damage(call: &mut Call, numbers: &mut Numbers) {
    let at = match call.function {
        BUILD => {
            call.record.order = builds::damaged(call.record.order, numbers);
            return;
        }
        CENSUS_FEED => 1,
        _ => numbers.below(call.pieces.len()),
    };
    let piece = &mut call.pieces[at];
    match numbers.below(3) {
        0 if !piece.is_empty() => {
            let place = numbers.below(piece.len());
            piece[place] = numbers.byte();
        }
        1 => piece.truncate(piece.len().saturating_sub(1 + numbers.below(4))),
        _ => {
            let more = numbers.below(4);
            piece.extend(numbers.bytes(more));
        }
    }
    for &at in sixteen_bits(call.function) {
        let whole = call.pieces[at].len() & !1;
        call.pieces[at].truncate(whole);
    }
}

fn block(numbers: &mut Numbers, known: &[Vec<u8>]) -> Vec<u8> {
    if numbers.once_in(3) {
        return numbers.bytes(512);
    }
    let mut block = known[numbers.below(known.len())].clone();
    for _ in 0..numbers.below(6) {
        let texts = [(20, 20), (46, 8), (54, 40)];
        let others = [(0, 2), (160, 2), (174, 4), (216, 8), (0, 512)];
        let field = match numbers.below(2) {
            0 => numbers.pick(&texts),
            _ => numbers.pick(&others),
        };
        let at = field.0 + numbers.below(field.1);
        block[at] = if numbers.once_in(2) {
            0
        } else {
            numbers.byte()
        };
    }
    if numbers.once_in(3) {
        block[175] = block[175] & 0x3E | 0x41;
    }
    if numbers.once_in(4) {
        block[216..224].fill(0);
    }
    if numbers.once_in(8) {
        block[50..54].fill(0x20);
    }
    // The real blocks have a checksum, which most changes have to keep right.
    let closed = if block[510] == 0xA5 { 5 } else { 1 };
    if numbers.below(6) < closed {
        block = lent::closed(block);
    }
    block
}

/// Mostly a command that is served, of any form, by either edition.
pub fn submit(numbers: &mut Numbers, known: &[Vec<u8>]) -> Call {
    let mut command = numbers.bytes(32);
    command[0] = numbers.pick(&[0x85, 0xA1, 0x7F]);
    let (flags, control) = match command[0] {
        0x7F => (10, 1),
        0x85 => (1, 15),
        _ => (1, 11),
    };
    if command[0] == 0x7F && !numbers.once_in(8) {
        command[7..10].copy_from_slice(&[0x18, 0x1F, 0xF0]);
    }
    if command[0] != 0x7F || numbers.once_in(16) {
        command.truncate(16);
    }
    if !numbers.once_in(8) {
        command[control] &= 0xFB;
    }
    if numbers.once_in(2) {
        // A protocol with data and a T_DIR that fits it.
        let from_drive = numbers.once_in(2);
        let protocol = if from_drive { [4, 6, 10] } else { [5, 6, 11] };
        command[flags] = command[flags] & 0xE1 | numbers.pick(&protocol) << 1;
        command[flags + 1] = command[flags + 1] & 0xF7 | u8::from(from_drive) << 3;
    }
    let declared = match numbers.below(4) {
        0 => u32::MAX,
        1 => numbers.next() as u32,
        2 => 512 * u32::from(numbers.byte()),
        _ => u32::from(numbers.byte()),
    };
    let mut call = lent::submit(&command, declared).edition(editions::any(numbers));
    call.pieces[1] = numbers.bytes(11);
    call.pieces[2] = a_block(numbers, known);
    call.pieces[3] = numbers.bytes(22);
    if numbers.once_in(4) {
        odd_record(&mut call, numbers);
    }
    call
}

/// None, or one with sectors of any size or of none that is told.
fn a_block(numbers: &mut Numbers, known: &[Vec<u8>]) -> Vec<u8> {
    if numbers.once_in(8) {
        return Vec::new();
    }
    let block = block(numbers, known);
    if numbers.once_in(3) {
        return block;
    }
    let words = match numbers.below(3) {
        0 => numbers.pick(&[0, 1, 256, 260, 2048, u32::MAX]),
        1 => numbers.next() as u32 & 0xFFFF,
        _ => numbers.next() as u32,
    };
    let mut block = lent::with_sectors(block, words);
    if numbers.once_in(4) {
        block[213] = numbers.byte();
    }
    if block[510] == 0xA5 && !numbers.once_in(8) {
        return lent::closed(block);
    }
    block
}

/// A record of any bytes; its state is 0 in one of two, and else mostly one
/// that the board leaves, with orders that a command makes.
pub fn odd_record(call: &mut Call, numbers: &mut Numbers) {
    let mut record = Bytes(&numbers.bytes(60)).record().unwrap_or_default();
    for order in [&mut record.order, &mut record.older] {
        order.ck_cond = numbers.pick(&[0, 1, order.ck_cond]);
        order.extend = numbers.pick(&[0, 1, order.extend]);
        order.protocol = numbers.pick(&[0, 1, order.protocol & 0x0F, order.protocol]);
    }
    record.state = match numbers.below(8) {
        0..=3 => 0,
        4..=5 => 2,
        6 => 1,
        _ => record.state >> numbers.pick(&[0, 8, 16, 24]),
    };
    call.record = record;
}

pub fn complete(numbers: &mut Numbers) -> Call {
    let mut call = Call::new(COMPLETE, vec![numbers.bytes(11), numbers.bytes(22)]);
    odd_record(&mut call, numbers);
    if call.record.state == 0 {
        call.record.state = numbers.pick(&[0, 1, 1, 2]);
    }
    if numbers.once_in(2) {
        call.pieces[0][10] &= 0xDE;
    }
    call
}

pub fn inquiry(numbers: &mut Numbers, known: &[Vec<u8>]) -> Call {
    let command = inquiry_command(numbers);
    let block = match numbers.below(8) {
        0 => Vec::new(),
        _ => block(numbers, known),
    };
    let room = match numbers.below(2) {
        0 => 572,
        _ => numbers.below(600),
    };
    let reply = match numbers.below(2) {
        0 => list(numbers),
        _ => Vec::new(),
    };
    let mut pieces = vec![command, block, numbers.bytes(20), numbers.bytes(28)];
    pieces.extend([reply, Vec::new(), numbers.bytes(room), numbers.bytes(22)]);
    if numbers.once_in(3) {
        pieces[2][5..7].copy_from_slice(&[0x14, 0xEB]);
    }
    let (ports, address) = ports(numbers);
    Call::new(INQUIRY, pieces).ports(ports, &address)
}

/// Any choice, mostly of ports that there are; and what is not chosen is any.
fn ports(numbers: &mut Numbers) -> (Ports, Vec<u8>) {
    let chosen = match numbers.below(8) {
        0 => numbers.next() as u16,
        _ => numbers.below(4) as u16,
    };
    let relative = match numbers.below(12) {
        0 => numbers.next() as u16,
        1 => numbers.pick(&[0, 3, 0x0100, 0x0201]),
        _ => 1 + numbers.below(2) as u16,
    };
    let size = match numbers.below(12) {
        0 => numbers.below(20),
        1 => numbers.pick(&[0, 7, 9]),
        _ => 8,
    };
    (Ports { chosen, relative }, numbers.bytes(size))
}

/// Mostly a command that is served.
fn inquiry_command(numbers: &mut Numbers) -> Vec<u8> {
    let page = match numbers.below(8) {
        0 => numbers.byte(),
        _ => numbers.pick(&[0x00, 0x80, 0x83, 0x89]),
    };
    let byte_1 = match numbers.below(8) {
        0 => numbers.byte(),
        1 => u8::from(page == 0),
        _ => u8::from(page != 0),
    };
    let allocation = match numbers.below(3) {
        0 => numbers.next() as u16,
        1 => numbers.below(600) as u16,
        _ => numbers.below(100) as u16,
    };
    let control = match numbers.below(8) {
        0 => numbers.byte(),
        _ => 0,
    };
    let [high, low] = allocation.to_be_bytes();
    vec![0x12, byte_1, page, high, low, control]
}

/// A packet drive's page 00h, mostly usable.
fn list(numbers: &mut Numbers) -> Vec<u8> {
    let step = 1 + numbers.below(40);
    let mut codes: Vec<u8> = (0..=0xFF).step_by(step).collect();
    codes.retain(|_| !numbers.once_in(5));
    let mut reply = vec![numbers.byte(), 0x00, numbers.byte(), codes.len() as u8];
    reply.extend(codes);
    let after = numbers.below(3);
    reply.extend(numbers.bytes(after));
    if numbers.once_in(4) {
        let at = numbers.below(reply.len());
        reply[at] = numbers.byte();
    }
    reply
}

fn read(numbers: &mut Numbers, known: &[Vec<u8>]) -> Call {
    if numbers.once_in(20) {
        let size = numbers.pick(&[0, 15, 16, 17, 24, 28, 36, 75, 76, 77, 84, 88, 96, 200]);
        return lent::read(&numbers.bytes(size));
    }
    let block = block(numbers, known);
    let (mut ports, mut address) = ports(numbers);
    address.resize(8, 0x00);
    if ports.relative > 3 {
        ports.relative %= 4;
    }
    lent::read(&lent::page83_with(&block, ports, &address))
}

fn write(numbers: &mut Numbers, known: &[Vec<u8>]) -> Call {
    let room = numbers.pick(&[0, 15, 16, 36, 75, 76, 83, 84, 87, 88, 95, 96, 100, 100]);
    let block = block(numbers, known);
    let (ports, address) = ports(numbers);
    let mut call = lent::write(&block, 0).ports(ports, &address);
    call.pieces[2] = numbers.bytes(room);
    call
}

fn roll(numbers: &mut Numbers, known: &[Vec<u8>]) -> Call {
    let blocks = blocks(numbers, known);
    let mut call = lent::roll(&blocks.concat(), 0);
    let rows = blocks.len() + numbers.below(3);
    call.pieces[1] = numbers.bytes(2 * rows);
    call
}

/// A block for a census that could have come about, or nearly.
fn feed(numbers: &mut Numbers, known: &[Vec<u8>]) -> Call {
    let blocks = match numbers.below(4) {
        0 => 65_500 + numbers.below(36),
        1 => numbers.below(4),
        _ => numbers.below(65_536),
    };
    let mut census = censuses::of(blocks as u16, numbers);
    if numbers.once_in(4) {
        censuses::change(&mut census, numbers);
    }
    let mut block = block(numbers, known);
    if numbers.once_in(2) {
        block[106] |= 0x04;
    }
    lent::feed(&census, &block)
}

/// An order that some command makes, or any bytes for one.
fn build(numbers: &mut Numbers) -> Call {
    lent::build(match numbers.below(8) {
        0 => Bytes(&numbers.bytes(28)).order().unwrap_or_default(),
        _ => builds::any(numbers),
    })
}

/// Up to 66 blocks, mostly few, with drives that come again.
fn blocks(numbers: &mut Numbers, known: &[Vec<u8>]) -> Vec<Vec<u8>> {
    let most = if numbers.once_in(10) { 67 } else { 9 };
    let mut blocks: Vec<Vec<u8>> = Vec::new();
    for at in 0..numbers.below(most) {
        if at > 0 && numbers.once_in(2) {
            let twin = blocks[numbers.below(at)].clone();
            blocks.push(twin);
            let place = numbers.below(512);
            blocks[at][place] = numbers.pick(&[0x00, 0x20, 0x41]);
        } else {
            blocks.push(block(numbers, known));
        }
    }
    blocks
}

/// What an intake has: mostly it is complete, or nearly.
fn have(numbers: &mut Numbers) -> u16 {
    match numbers.below(8) {
        0 => numbers.next() as u16,
        1 | 2 => numbers.below(514) as u16,
        3 => 509 + numbers.below(5) as u16,
        _ => 512,
    }
}

fn take(numbers: &mut Numbers, known: &[Vec<u8>]) -> Call {
    let have = match numbers.below(2) {
        0 => have(numbers),
        _ => numbers.below(513) as u16,
    };
    let sum = match numbers.below(2) {
        0 => numbers.next() as u16,
        _ => u16::from(numbers.byte()),
    };
    let rest = 512_usize.saturating_sub(usize::from(have));
    let size = match numbers.below(4) {
        0 => rest + numbers.below(3),
        1 => numbers.below(1100),
        _ => numbers.below(80),
    };
    lent::take(
        Intake { have, sum },
        &block(numbers, known),
        &numbers.bytes(size),
    )
}

fn intake_inquiry(numbers: &mut Numbers, known: &[Vec<u8>]) -> Call {
    let mut call = inquiry(numbers, known);
    if call.pieces[1].is_empty() && !numbers.once_in(4) {
        call.pieces[1] = block(numbers, known);
    }
    let sum = numbers.next() as u16;
    let mut call = lent::from_intake(call, have(numbers));
    call.intake.sum = sum;
    call
}

fn intake_roll(numbers: &mut Numbers, known: &[Vec<u8>]) -> Call {
    let stores = blocks(numbers, known);
    let haves: Vec<u16> = (0..stores.len())
        .map(|_| match numbers.below(40) {
            0 => have(numbers),
            1..=8 => numbers.below(512) as u16,
            _ => 512,
        })
        .collect();
    let complete = haves.iter().filter(|&&have| have == 512).count();
    let mut call = lent::intake_roll(&haves, &stores.concat(), 0, 0);
    let space = (512 * complete + numbers.pick(&[0, 1, 512])).saturating_sub(numbers.below(8) / 7);
    call.pieces[2] = numbers.bytes(space);
    let rows = complete + numbers.below(3);
    call.pieces[3] = numbers.bytes(2 * rows);
    call
}
