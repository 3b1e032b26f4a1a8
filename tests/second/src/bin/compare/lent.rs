//! Pieces that the inputs are made of: blocks, signatures, texts, records.

use crate::call::{self, Call};
use second::{Census, Intake, Order, Ports, Record};

/// Fills lent room before a call, so that a written byte is seen.
pub const FILL: u8 = 0xA5;

pub fn room(size: usize) -> Vec<u8> {
    vec![FILL; size]
}

/// Registers whose eleven bytes all differ; the status has no error bit.
pub const REGISTERS: [u8; 11] = [
    0x11, 0x22, 0x33, 0x44, 0x55, 0x66, 0x77, 0x88, 0x99, 0xAA, 0x50,
];

pub fn registers(status: u8) -> Vec<u8> {
    let mut registers = REGISTERS.to_vec();
    registers[10] = status;
    registers
}

pub fn plain_signature() -> Vec<u8> {
    let mut signature: Vec<u8> = (0x61..0x75).collect();
    signature[5..7].fill(0);
    signature
}

pub fn packet_signature() -> Vec<u8> {
    let mut signature = plain_signature();
    signature[5..7].copy_from_slice(&[0x14, 0xEB]);
    signature
}

pub fn texts() -> Vec<u8> {
    (0x41..0x5D).collect()
}

pub fn zero_block() -> Vec<u8> {
    vec![0; 512]
}

/// Block 0 of the sample (RULES 11): zero but for its name, and word 87, which
/// says that it has one.
pub fn block_0() -> Vec<u8> {
    let mut block = zero_block();
    block[216..224].copy_from_slice(&[0x00, 0x50, 0x00, 0xC5, 0x34, 0x12, 0x78, 0x56]);
    with_word(block, 87, NAMED)
}

/// What word 87 says of a drive that has a name.
pub const NAMED: u16 = 0x4100;

/// The block with this word.
pub fn with_word(mut block: Vec<u8>, w: usize, value: u16) -> Vec<u8> {
    block[2 * w..2 * w + 2].copy_from_slice(&value.to_le_bytes());
    block
}

/// Whether a block of any size carries a name (RULES 5), read here once more.
pub fn carries_name(block: &[u8]) -> bool {
    let says = block.get(175).map_or(false, |high| high & 0xC1 == 0x41);
    let name = block.get(216..224).unwrap_or(&[]);
    says && name.iter().any(|&byte| byte != 0)
}

/// A block without a name, whose neighbouring bytes differ.
pub fn text_block() -> Vec<u8> {
    let mut block: Vec<u8> = (0..512).map(|at| 1 + (at % 251) as u8).collect();
    block[216..224].fill(0);
    block
}

/// A block with factory text where a name stands, and word 87 that says there
/// is none.
pub fn junk_block() -> Vec<u8> {
    let mut block = with_word(text_block(), 87, NAMED & !0x0100);
    block[216..224].copy_from_slice(b"AFTCRO Y");
    block
}

/// A block without a name whose texts hold zero bytes and spaces.
pub fn holey_block() -> Vec<u8> {
    let mut block = text_block();
    for at in (20..94).step_by(3) {
        block[at] = 0;
    }
    block[25] = 0x20;
    block[60..64].copy_from_slice(&[0x20, 0, 0, 0x20]);
    block
}

/// The block with A5h in byte 510, and the byte behind it so that all sum to 0.
pub fn closed(mut block: Vec<u8>) -> Vec<u8> {
    block[510] = 0xA5;
    let sum = block[..511]
        .iter()
        .fold(0_u8, |sum, &byte| sum.wrapping_add(byte));
    block[511] = sum.wrapping_neg();
    block
}

/// A block that was closed, with two letters of its serial number changed.
pub fn damaged_block() -> Vec<u8> {
    let mut block = closed(holey_block());
    block[22] ^= 0x01;
    block[33] ^= 0x42;
    block
}

/// Blocks of every kind that a page can tell apart.
pub fn blocks() -> Vec<Vec<u8>> {
    let mut removable = text_block();
    removable[0] |= 0x80;
    let mut fixed = holey_block();
    fixed[0] &= 0x7F;
    let mut blank_revision = text_block();
    blank_revision[50..54].fill(0x20);
    let mut all = vec![zero_block(), block_0(), text_block(), holey_block()];
    all.extend([removable, fixed, blank_revision]);
    all.extend([junk_block(), vec![0xFF; 512], vec![0x20; 512]]);
    all.extend([closed(text_block()), closed(block_0()), damaged_block()]);
    for at in 216..224 {
        let mut one_bit = with_word(text_block(), 87, NAMED);
        one_bit[at] = 1 << (at % 8);
        all.push(one_bit);
    }
    all
}

/// An order that is pending and that no command makes, and another one in the
/// place of the older order, whose CK_COND and EXTEND count as the opposite.
pub fn odd_record(state: u32, ck_cond: u8, extend: u8) -> Record {
    let opposite = |flag| if flag == 0 { 0x55 } else { 0 };
    Record {
        state,
        order: Order {
            length: 0xDEAD_BEEF,
            auxiliary: 0xFEED_C0DE,
            features: 0x1122,
            count: 0x3344,
            lba_low: 0x5566,
            lba_mid: 0x7788,
            lba_high: 0x99AA,
            quiet_seconds: 999,
            sectors_per_block: 777,
            device: 0xBB,
            command: 0xCC,
            protocol: 0xDD,
            ck_cond,
            extend,
            direction: 0xEE,
        },
        older: odd_older(opposite(ck_cond), opposite(extend)),
    }
}

fn odd_older(ck_cond: u8, extend: u8) -> Order {
    Order {
        length: 0xFEED_FACE,
        auxiliary: 0x0BAD_CAFE,
        features: 0x2233,
        count: 0x4455,
        lba_low: 0x6677,
        lba_mid: 0x8899,
        lba_high: 0xAABB,
        quiet_seconds: 888,
        sectors_per_block: 666,
        device: 0xC1,
        command: 0xD1,
        protocol: 0xE1,
        ck_cond,
        extend,
        direction: 0xF1,
    }
}

/// An INQUIRY with ample room for a drive with block 0.
pub fn inquiry(command: &[u8]) -> Call {
    let pieces = vec![
        command.to_vec(),
        block_0(),
        plain_signature(),
        texts(),
        Vec::new(),
        Vec::new(),
        room(600),
        room(26),
    ];
    Call::new(call::INQUIRY, pieces)
}

/// An INQUIRY for a page, with an allocation length.
pub fn inquiry_page(page: u8, allocation: u16) -> Call {
    let [high, low] = allocation.to_be_bytes();
    inquiry(&[0x12, 0x01, page, high, low, 0x00])
}

pub fn packet(mut call: Call, reply: &[u8]) -> Call {
    call.pieces[2] = packet_signature();
    call.pieces[4] = reply.to_vec();
    call
}

/// The block with sectors of this many words, as word 106 tells of them.
pub fn with_sectors(block: Vec<u8>, words: u32) -> Vec<u8> {
    let block = with_word(block, 106, 0x5000);
    let block = with_word(block, 117, words as u16);
    with_word(block, 118, (words >> 16) as u16)
}

/// A pass-through command with nothing pending, for a drive with sectors of
/// 4096 bytes.
pub fn submit(command: &[u8], declared: u32) -> Call {
    let block = with_sectors(text_block(), 2048);
    let pieces = vec![command.to_vec(), REGISTERS.to_vec(), block, room(26)];
    Call::new(call::SUBMIT, pieces).declared(declared)
}

/// That record with these protocols of the order and of the older one.
pub fn record_of(state: u32, protocol: u8, older: u8) -> Record {
    let mut record = odd_record(state, 0x80, 9);
    record.order.protocol = protocol;
    record.older.protocol = older;
    record
}

pub fn complete(record: Record, status: u8) -> Call {
    Call::new(call::COMPLETE, vec![registers(status), room(26)]).record(record)
}

pub fn write(block: &[u8], size: usize) -> Call {
    Call::new(call::WRITE, vec![block.to_vec(), Vec::new(), room(size)])
}

pub fn read(page: &[u8]) -> Call {
    Call::new(call::READ, vec![page.to_vec()])
}

/// A roll with room for so many rows.
pub fn roll(blocks: &[u8], rows: usize) -> Call {
    Call::new(call::ROLL, vec![blocks.to_vec(), room(2 * rows)])
}

/// So many bytes more or fewer, but not fewer than none.
pub fn near(size: usize, more: isize) -> usize {
    (size as isize + more).max(0) as usize
}

/// A run for an intake with this store.
pub fn take(intake: Intake, store: &[u8], run: &[u8]) -> Call {
    Call::new(call::INTAKE_TAKE, vec![store.to_vec(), run.to_vec()]).intake(intake)
}

/// An INQUIRY made one with an intake's block; the store is the call's block.
pub fn from_intake(mut call: Call, have: u16) -> Call {
    call.function = call::INTAKE_INQUIRY;
    call.pieces.swap(0, 1);
    call.intake(Intake { have, sum: 0 })
}

/// A roll of what is gathered of intakes with these stores, with room for so
/// many bytes and rows.
pub fn intake_roll(haves: &[u16], stores: &[u8], space: usize, rows: usize) -> Call {
    let haves = haves.iter().flat_map(|have| have.to_le_bytes()).collect();
    let pieces = vec![haves, stores.to_vec(), room(space), room(2 * rows)];
    Call::new(call::INTAKE_ROLL, pieces)
}

pub fn feed(census: &Census, block: &[u8]) -> Call {
    let pieces = vec![call::census_bytes(census), block.to_vec()];
    Call::new(call::CENSUS_FEED, pieces)
}

/// The builder with this order, in a record whose other bytes are odd.
pub fn build(order: Order) -> Call {
    let record = Record {
        order,
        ..odd_record(3, 1, 1)
    };
    Call::new(call::BUILD, Vec::new()).record(record)
}

/// An order of a protocol that has this direction: a reset, or one in which all
/// registers differ, and the count tells the length of data in blocks.
pub fn order(protocol: u8, direction: u8, extend: u8) -> Order {
    let reset = Order {
        sectors_per_block: 1,
        protocol,
        ..Order::default()
    };
    if protocol < 2 {
        return reset;
    }
    let register = |upper: u16, lower: u16| u16::from(extend) * 256 * upper + lower;
    let count = register(0x33, 0x44);
    Order {
        length: if direction == 0 {
            0
        } else {
            512 * u32::from(count)
        },
        features: register(0x11, 0x22),
        count,
        lba_low: register(0x55, 0x66),
        lba_mid: register(0x77, 0x88),
        lba_high: register(0x99, 0xAA),
        sectors_per_block: 16,
        device: 0xBB,
        command: 0xCC,
        ck_cond: 1,
        extend,
        direction,
        ..reset
    }
}

/// The page 83h that a block has, without ports.
pub fn page83(block: &[u8]) -> Vec<u8> {
    page83_with(block, Ports::default(), &[])
}

/// Its page 83h with these ports.
pub fn page83_with(block: &[u8], ports: Ports, address: &[u8]) -> Vec<u8> {
    second::page83::page83(block, ports, address)
}

/// An address whose bytes all differ.
pub const ADDRESS: [u8; 8] = [0x50, 0x01, 0xC2, 0xD3, 0xE4, 0xF5, 0x06, 0x17];
