//! Damaged blocks (RULES 5): 18, right after 1, in every function that is lent
//! a block.

mod common;

use common::*;
use second::{gather, inquiry, roll, rollcall, Counted, Ports, Roll, Written};

/// The block with A5h in byte 510, and the last byte so that all sum to 0.
fn closed(mut block: [u8; 512]) -> [u8; 512] {
    block[510] = 0xA5;
    let sum: u32 = block[..511].iter().map(|&byte| u32::from(byte)).sum();
    block[511] = ((256 - sum % 256) % 256) as u8;
    block
}

/// A loose cable changed two letters of its serial number.
fn damaged() -> [u8; 512] {
    let mut block = closed(text_block());
    block[24] ^= 0x01;
    block[31] ^= 0x10;
    block
}

fn is_taken(block: &[u8]) -> bool {
    let mut room = [FILL; 90];
    let written = write_without_ports(block, &mut room);
    assert!(written.number == 0 || written.number == 18);
    if written.number == 18 {
        assert_eq!(written.count, 0);
        assert!(is_filled(&room));
    }
    let mut rows = [77];
    let rolled = roll(block, &mut rows);
    assert_eq!(rolled.number, written.number);
    assert_eq!(rows, if rolled.number == 0 { [1] } else { [77] });
    let (answer, _, _) = Ask::new(&[0x12, 0x01, 0x89, 0x00, 0xFF, 0x00])
        .block(block)
        .run();
    assert_eq!(answer.number, written.number);
    written.number == 0
}

#[test]
fn one_sum_of_256_is_right() {
    let right = closed(text_block());
    for last in 0..=0xFF {
        let mut block = right;
        block[511] = last;
        assert_eq!(is_taken(&block), last == right[511]);
    }
}

/// Every changed bit is seen, but in the byte that tells of the sum.
#[test]
fn every_bit_changed_alone() {
    let right = closed(block_0());
    let mut refused = 0;
    for bit in 0..4096 {
        let mut block = right;
        block[bit / 8] ^= 1 << (bit % 8);
        let taken = is_taken(&block);
        assert_eq!(taken, bit / 8 == 510);
        refused += u32::from(!taken);
    }
    assert_eq!(refused, 4088);
}

/// A5h in byte 511 says nothing, nor does any other byte in 510.
#[test]
fn blocks_without_the_mark_are_taken() {
    for mark in (0..=0xFF).filter(|&mark| mark != 0xA5) {
        for last in [0x00, 0x01, 0xA5, 0xFF] {
            let mut block = text_block();
            block[510..].copy_from_slice(&[mark, last]);
            assert!(is_taken(&block));
        }
    }
}

/// No block is no damaged block: what needs none is served.
#[test]
fn an_absent_block_is_taken_as_before() {
    Ask::new(&[0x12, 0x01, 0x83, 0x00, 0xFF, 0x00])
        .block(&[])
        .refused(6);
    Ask::new(&[0x12, 0x01, 0x00, 0x00, 0xFF, 0x00])
        .block(&[])
        .writes(&[0x00, 0x00, 0x00, 0x04, 0x00, 0x80, 0x83, 0x89]);
}

const COMMANDS: [&[u8]; 10] = [
    &[],
    &[0x12],
    &[0x00; 6],
    &[0x12, 0x00, 0x00, 0x00, 0x24, 0x00],
    &[0x12, 0x01, 0x00, 0x00, 0xFF, 0x00],
    &[0x12, 0x01, 0x80, 0x00, 0xFF, 0x00],
    &[0x12, 0x01, 0x89, 0xFF, 0xFF, 0x00],
    &[0x12, 0x01, 0x83, 0x00, 0x00, 0x00],
    &[0x12, 0x03, 0x83, 0x00, 0xFF, 0x04],
    &[0x12, 0x01, 0xB0, 0x00, 0xFF, 0x00],
];

/// Whatever is asked, of a packet drive too, and before 2 to 8.
#[test]
fn inquiry_18_before_the_command_is_read() {
    for command in COMMANDS {
        let ask = Ask::new(command).block(&damaged());
        ask.refused(18);
        ask.clone().room(0).refused(18);
        ask.clone().packet(&[]).refused(18);
        ask.packet(&[5, 0, 0, 0]).room(0).refused(18);
    }
}

#[test]
fn inquiry_1_before_18() {
    for command in COMMANDS {
        let ask = Ask::new(command).block(&damaged());
        ask.clone().signature(&[0; 19]).refused(1);
        ask.clone().texts(&[0; 29]).refused(1);
        ask.sense(21).refused(1);
    }
}

/// A refused INQUIRY has no status, and writes nothing to the host.
#[test]
fn inquiry_18_tells_nothing() {
    let (mut room, mut sense) = ([FILL; 600], [FILL; 22]);
    let standard = [0x12, 0, 0, 0, 36, 0];
    let answer = inquiry(
        &standard,
        &damaged(),
        &PLAIN,
        &texts(),
        &[],
        Ports::default(),
        &[],
        0,
        &mut room,
        &mut sense,
    );
    assert_eq!((answer.number, answer.status), (18, 0xFF));
    assert_eq!((answer.shown, answer.count), (1, 0));
    assert!(is_filled(&room) && is_filled(&sense));
}

#[test]
fn writer_18_before_8() {
    for size in [0, 15, 75, 76] {
        let mut room = vec![FILL; size];
        let wanted = Written {
            number: 18,
            count: 0,
        };
        assert_eq!(write_without_ports(&damaged(), &mut room), wanted);
        assert!(is_filled(&room));
    }
}

const REFUSED_ROLL: Roll = Roll {
    number: 18,
    blocks: 0,
    drives: 0,
};

/// One damaged block, wherever it stands: no row is written.
#[test]
fn the_roll_is_refused_whole() {
    for count in [1, 2, 5, 64] {
        for at in 0..count {
            let mut blocks = vec![closed(block_0()); count];
            let mut rows = vec![77; count];
            assert_eq!(roll(&blocks.concat(), &mut rows).number, 0);
            blocks[at] = damaged();
            let mut rows = vec![77; count];
            assert_eq!(roll(&blocks.concat(), &mut rows), REFUSED_ROLL);
            assert!(rows.iter().all(|&row| row == 77));
            assert_eq!(rollcall(&blocks.concat()), "refused 18\n");
            let mut fewer = vec![77; count - 1];
            assert_eq!(roll(&blocks.concat(), &mut fewer).number, 1);
        }
    }
}

#[test]
fn rollcall_1_before_18() {
    let mut input = damaged().to_vec();
    input.push(0);
    assert_eq!(rollcall(&input), "refused 1\n");
    assert_eq!(rollcall(&damaged().repeat(65)), "refused 1\n");
}

fn gathers(haves: &[u16], stores: &[[u8; 512]], space: usize) -> Counted {
    let mut room = vec![FILL; space];
    let counted = gather(haves, &stores.concat(), &mut room);
    assert!(is_filled(&room[counted.count..]));
    counted
}

/// 18 behind 1 and before 8; a store that is no block yet is not asked.
#[test]
fn gathering_refuses_damaged_blocks() {
    let stores = [block_0(), damaged(), text_block()];
    let number = |haves: [u16; 3], space: usize| gathers(&haves, &stores, space).number;
    assert_eq!(number([512, 512, 512], 1536), 18);
    assert_eq!(number([511, 512, 0], 512), 18);
    assert_eq!(number([512, 512, 512], 1535), 18);
    assert_eq!(number([512, 512, 513], 1535), 1);
    assert_eq!(number([512, 511, 512], 1024), 0);
    assert_eq!(number([512, 511, 512], 1023), 8);
    assert_eq!(number([512, 0, 512], 1024), 0);
    assert_eq!(gathers(&[0, 512, 0], &stores, 512).count, 0);
}
