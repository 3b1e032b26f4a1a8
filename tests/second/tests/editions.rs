//! The later edition: the 32-byte form, counts of sectors, and what the first
//! edition makes of both.

mod common;

use common::*;
use second::Order;

/// A 32-byte command with these flags, and unlike bytes in every other place.
fn command_32(first: u8, second: u8) -> [u8; 32] {
    [
        0x7F, 0x00, 0xE2, 0xE3, 0xE4, 0xE5, 0xE6, 0x18, 0x1F, 0xF0, first, second, 0xEC, 0xED,
        0x51, 0x41, 0x31, 0x52, 0x42, 0x32, 0x11, 0x12, 0x21, 0x22, 0x61, 0x71, 0xFA, 0xFB, 0x81,
        0x82, 0x83, 0x84,
    ]
}

/// A block with sectors of so many words.
fn sectors(words: u32) -> [u8; 512] {
    let mut block = text_block();
    block[212..214].copy_from_slice(&[0x00, 0x50]);
    block[234..238].copy_from_slice(&words.to_le_bytes());
    block
}

/// Every edition number but the later one's that a byte has.
fn first_editions() -> impl Iterator<Item = u8> {
    (0..=255).filter(|&edition| edition != 2)
}

/// IDENTIFY DEVICE by the count of blocks, with T_TYPE, in each form.
fn with_t_type() -> [Vec<u8>; 3] {
    let mut long = command_32(0x08, 0x1E);
    long[22..24].copy_from_slice(&[0, 1]);
    let short = [0x85, 0x08, 0x1E, 0, 0, 0, 1, 0, 0, 0, 0, 0, 0, 0, 0xEC, 0];
    let shortest = [0xA1, 0x08, 0x1E, 0, 1, 0, 0, 0, 0, 0xEC, 0, 0];
    [shortest.to_vec(), short.to_vec(), long.to_vec()]
}

#[test]
fn fields_of_the_32_byte_form() {
    let low = Order {
        auxiliary: 0x8182_8384,
        features: 0x12,
        count: 0x22,
        lba_low: 0x32,
        lba_mid: 0x42,
        lba_high: 0x52,
        device: 0x61,
        command: 0x71,
        sectors_per_block: 1,
        protocol: 3,
        ..Order::default()
    };
    let pass = Pass::new(&command_32(0x06, 0x00));
    assert_eq!(pass.later(&[]).order(), low);
    let extended = Order {
        features: 0x1112,
        count: 0x2122,
        lba_low: 0x3132,
        lba_mid: 0x4142,
        lba_high: 0x5152,
        extend: 1,
        ..low
    };
    let pass = Pass::new(&command_32(0x07, 0x00));
    assert_eq!(pass.later(&[]).order(), extended);
    let flags = Order {
        quiet_seconds: 14,
        sectors_per_block: 128,
        ck_cond: 1,
        ..low
    };
    let pass = Pass::new(&command_32(0xE6, 0xF8));
    assert_eq!(pass.later(&[]).order(), flags);
}

#[test]
fn resets_and_reports_of_the_32_byte_form() {
    let reset = Pass::new(&command_32(0x03, 0x9E)).later(&[]).order();
    let wanted = Order {
        protocol: 1,
        quiet_seconds: 6,
        sectors_per_block: 1,
        ..Order::default()
    };
    assert_eq!(reset, wanted);
    let (taken, record, _) = Pass::new(&command_32(0x1E, 0x1E)).later(&[]).run();
    assert_eq!((taken.number, taken.status), (0, 0x02));
    assert_eq!(record.state, 0);
}

#[test]
fn other_forms_have_no_auxiliary_number() {
    for (opcode, size) in [(0xA1, 12), (0x85, 16)] {
        let mut command = [0xFF; 40];
        command[..3].copy_from_slice(&[opcode, 0x06, 0x00]);
        command[size - 1] = 0;
        assert_eq!(Pass::new(&command).later(&[]).order().auxiliary, 0);
    }
}

#[test]
fn first_edition_has_no_32_byte_form() {
    for edition in first_editions() {
        let pass = Pass::new(&command_32(0x06, 0x00)).edition(edition);
        pass.refused(3);
        Pass::new(&[0x7F]).edition(edition).refused(3);
    }
}

#[test]
fn first_edition_looks_at_no_block_and_no_t_type() {
    let mut damaged = sectors(2048);
    damaged[510] = 0xA5;
    let blocks: [&[u8]; 5] = [&[], &[0; 1], &[0; 511], &damaged, &sectors(2048)];
    for edition in first_editions() {
        for command in &with_t_type()[..2] {
            for block in blocks {
                let pass = Pass::new(command).later(block).edition(edition);
                assert_eq!(pass.order().length, 512);
            }
        }
    }
}

#[test]
fn sectors_are_twice_their_words() {
    for command in with_t_type() {
        for (words, size) in [
            (1, 2),
            (256, 512),
            (260, 520),
            (2048, 4096),
            (0x10000, 0x20000),
        ] {
            let pass = Pass::new(&command).later(&sectors(words));
            assert_eq!(pass.clone().declared(size).order().length, size);
            pass.declared(size - 1).refused(14);
        }
        Pass::new(&command).later(&sectors(0)).refused(13);
    }
}

#[test]
fn word_106_says_whether_words_117_and_118_count() {
    for high in 0..=255_u8 {
        let mut block = sectors(2048);
        block[213] = high;
        let size = if high & 0xD0 == 0x50 { 4096 } else { 512 };
        for command in with_t_type() {
            assert_eq!(Pass::new(&command).later(&block).order().length, size);
        }
    }
}

#[test]
fn t_type_is_of_block_counts_alone() {
    for command in with_t_type() {
        let at = if command[0] == 0x7F { 11 } else { 2 };
        for (flags, length) in [
            (0x0E, 512),
            (0x1A, 1),
            (0x0A, 1),
            (0x1F, 7777),
            (0x1B, 7777),
        ] {
            let pass = Pass::new(&command).byte(at, flags).declared(7777);
            // None of these needs a block.
            for block in [&sectors(2048)[..], &[]] {
                assert_eq!(pass.clone().later(block).order().length, length);
            }
        }
        Pass::new(&command).later(&[]).refused(6);
        Pass::new(&command).byte(at, 0x1D).later(&[]).refused(6);
    }
}

#[test]
fn the_largest_products() {
    let mut long = command_32(0x09, 0x1E);
    long[22..24].fill(0xFF);
    let pass = Pass::new(&long);
    // 65,535 sectors of 8,589,934,590 bytes, and one such.
    pass.clone().later(&sectors(u32::MAX)).refused(14);
    pass.clone()
        .byte(22, 0)
        .byte(23, 1)
        .later(&sectors(u32::MAX))
        .refused(14);
    // 2 to the power 32, of which 32 bits keep nothing.
    pass.clone()
        .byte(22, 0)
        .byte(23, 1)
        .later(&sectors(1 << 31))
        .refused(14);
    pass.clone()
        .byte(22, 0)
        .byte(23, 2)
        .later(&sectors(1 << 30))
        .refused(14);
    // The most that a declared length can be.
    let most = pass
        .clone()
        .byte(22, 0)
        .byte(23, 1)
        .later(&sectors((1 << 31) - 1));
    assert_eq!(most.order().length, u32::MAX - 1);
    let pass = pass.later(&sectors(2048));
    assert_eq!(pass.order().length, 268_431_360);
}

#[test]
fn row_1_and_row_18_of_the_later_edition() {
    let mut damaged = sectors(2048);
    damaged[510] = 0xA5;
    let commands: [&[u8]; 4] = [&[], &[0x12], &C6, &command_32(0x06, 0x00)];
    for command in commands {
        for size in [1, 511, 513, 1024] {
            Pass::new(command).later(&vec![0; size]).refused(1);
        }
        Pass::new(command).later(&damaged).refused(18);
        Pass::new(command).later(&damaged).pending().refused(18);
        Pass::new(command).later(&damaged).sense(21).refused(1);
        Pass::new(command)
            .later(&damaged)
            .registers(&[0; 10])
            .refused(1);
    }
}

#[test]
fn row_2_of_the_32_byte_form() {
    for size in 1..32 {
        let mut short = command_32(0x06, 0x00);
        short[1] = 0x04;
        short[9] = 0x00;
        Pass::new(&short[..size]).later(&[]).refused(2);
    }
    let longer = [&command_32(0x06, 0x00)[..], &[0xFF; 9]].concat();
    Pass::new(&longer).later(&[]).order();
}

#[test]
fn row_4_of_the_32_byte_form() {
    let pass = Pass::new(&command_32(0x06, 0x00)).later(&[]);
    pass.clone().byte(1, 0x04).refused(4);
    pass.clone().byte(1, 0xFB).order();
    pass.clone().byte(31, 0x04).order();
    // Before 20.
    pass.byte(1, 0x04).byte(7, 0x00).refused(4);
}

#[test]
fn row_20_each_of_bytes_7_to_9() {
    let pass = Pass::new(&command_32(0x06, 0x00)).later(&[]);
    for at in 7..10 {
        for value in 0..=255 {
            let other = pass.clone().byte(at, value);
            if value == pass.command[at] {
                other.order();
            } else {
                other.refused(20);
            }
        }
        // Before 9, 10 and 11.
        let wrong = pass.clone().byte(at, 0x00);
        wrong.clone().byte(10, 0x04).refused(20);
        wrong.clone().pending().refused(20);
        wrong.clone().byte(11, 0x02).refused(20);
        // And for protocol 15 and resets too.
        wrong.clone().byte(10, 0x1E).refused(20);
        wrong.byte(10, 0x00).refused(20);
    }
}

#[test]
fn row_6_between_12_and_13() {
    for command in with_t_type() {
        let (flags, count) = match command[0] {
            0x7F => (11, 23),
            0x85 => (2, 6),
            _ => (2, 4),
        };
        let pass = Pass::new(&command).later(&[]);
        pass.clone().byte(flags, 0x16).refused(12);
        pass.clone().byte(flags, 0x1C).refused(11);
        pass.clone().pending().refused(10);
        pass.clone().byte(count, 0).refused(6);
        pass.clone().declared(0).refused(6);
        pass.byte(flags - 1, 0x06).refused(11);
    }
}
