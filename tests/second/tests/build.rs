//! The builder: every byte that it makes, and every order that it refuses.

mod common;

use common::*;
use second::{build, Built, Order};

/// What an order is built into, where it is not refused.
fn command_of(order: Order) -> Vec<u8> {
    let built = build(order);
    assert_eq!(built.number, 0, "{order:?} is refused");
    let (command, behind) = built.command.split_at(built.size.into());
    assert!(behind.iter().all(|&byte| byte == 0), "bytes stand behind");
    command.to_vec()
}

fn refused(order: Order) {
    let wanted = Built {
        number: 23,
        ..Built::default()
    };
    assert_eq!(build(order), wanted, "{order:?}");
}

/// An order without data, of which every field but length and direction says
/// something.
fn without_data() -> Order {
    Order {
        features: 0x0102,
        count: 0x0304,
        lba_low: 0x0506,
        lba_mid: 0x0708,
        lba_high: 0x090A,
        quiet_seconds: 6,
        sectors_per_block: 8,
        device: 0x0B,
        command: 0x0C,
        protocol: 3,
        ck_cond: 1,
        extend: 1,
        ..Order::default()
    }
}

/// One with data from the drive, whose length the count tells in blocks.
fn with_data() -> Order {
    Order {
        length: 0x0304 * 512,
        protocol: 4,
        direction: 1,
        ..without_data()
    }
}

/// The same in the short form.
fn short() -> Order {
    Order {
        length: 4 * 512,
        features: 2,
        count: 4,
        lba_low: 6,
        lba_mid: 8,
        lba_high: 10,
        extend: 0,
        ..with_data()
    }
}

fn reset() -> Order {
    Order {
        quiet_seconds: 14,
        sectors_per_block: 1,
        protocol: 1,
        ..Order::default()
    }
}

#[test]
fn every_byte_of_both_forms() {
    let long = [
        0x85, 0x67, 0xA0, 1, 2, 3, 4, 5, 6, 7, 8, 9, 10, 0x0B, 0x0C, 0,
    ];
    assert_eq!(command_of(without_data()), long);
    let long = [
        0x85, 0x69, 0xAE, 1, 2, 3, 4, 5, 6, 7, 8, 9, 10, 0x0B, 0x0C, 0,
    ];
    assert_eq!(command_of(with_data()), long);
    let bytes = [0xA1, 0x68, 0xAE, 2, 4, 6, 8, 10, 0x0B, 0x0C, 0, 0];
    assert_eq!(command_of(short()), bytes);
    let bytes = [0xA1, 0x02, 0xC0, 0, 0, 0, 0, 0, 0, 0, 0, 0];
    assert_eq!(command_of(reset()), bytes);
}

/// The soundings' orders come back to their commands, or to the short form.
#[test]
fn soundings() {
    let c6 = Pass::new(&C6).declared(512).order();
    assert_eq!(command_of(c6), C6);
    let c12 = Pass::new(&C12).order();
    assert_eq!(command_of(c12)[..3], [0xA1, 0x06, 0x20]);
    assert_eq!(command_of(c12)[9], 0xE5);
}

/// The five places of a length, each only where none before it has the length.
#[test]
fn where_the_length_stands() {
    for (features, count, length, bits) in [
        (512, 1, 512, 0x06),    // the features in bytes, too
        (1, 512, 512, 0x02),    // the features in blocks, too
        (7, 512, 262_144, 6),   // the count in blocks
        (7, 9, 9, 0x02),        // the count in bytes
        (7, 9, 3584, 0x05),     // the features in blocks
        (7, 9, 7, 0x01),        // the features in bytes
        (7, 9, 8, 0x03),        // neither
        (0, 0, 1, 0x03),        // no counts
        (0, 0, 0xFFFF_FFFF, 3), // the most
    ] {
        let order = Order {
            length,
            features,
            count,
            ..with_data()
        };
        assert_eq!(command_of(order)[2] & 0x07, bits, "{order:?}");
    }
}

/// Every protocol with every direction, with a length and without.
#[test]
fn protocols_and_directions() {
    for protocol in 0..=0xFF {
        for direction in 0..=0xFF {
            let moves = Order {
                protocol,
                direction,
                ..with_data()
            };
            let rests = Order { length: 0, ..moves };
            match (protocol, direction) {
                (4 | 6 | 10, 1) => assert_eq!(command_of(moves)[2] & 0x0F, 0x0E),
                (5 | 6 | 11, 2) => assert_eq!(command_of(moves)[2] & 0x0F, 0x06),
                _ => refused(moves),
            }
            match (protocol, direction) {
                (3 | 8 | 9, 0) => assert_eq!(command_of(rests)[2] & 0x0F, 0x00),
                _ => refused(rests),
            }
        }
    }
}

/// Each field of an order with a value that no command gives it.
#[test]
fn fields_that_no_command_has() {
    for order in [without_data(), with_data(), short(), reset()] {
        command_of(order);
        let changed: [fn(&mut Order); 9] = [
            |order| order.auxiliary = 1,
            |order| order.auxiliary = 0x8000_0000,
            |order| order.quiet_seconds = 3,
            |order| order.quiet_seconds = 0x0102,
            |order| order.sectors_per_block = 0,
            |order| order.sectors_per_block = 3,
            |order| order.sectors_per_block = 256,
            |order| order.ck_cond = 2,
            |order| order.extend = 0x81,
        ];
        for change in changed {
            let mut one = order;
            change(&mut one);
            refused(one);
        }
    }
}

/// Every number of seconds and of sectors, and each flag.
#[test]
fn every_number() {
    for number in 0..=0xFFFF {
        let seconds = [0, 2, 6, 14].contains(&number);
        let sectors = (0..8).any(|power| number == 1 << power);
        for order in [with_data(), short(), without_data(), reset()] {
            let is_reset = order.protocol < 2;
            let mut one = order;
            one.quiet_seconds = number;
            assert_eq!(build(one).number == 0, seconds, "{one:?}");
            let mut one = order;
            one.sectors_per_block = number;
            let given = if is_reset { number == 1 } else { sectors };
            assert_eq!(build(one).number == 0, given, "{one:?}");
        }
    }
}

/// With EXTEND zero a register has one byte.
#[test]
fn upper_bytes_without_extend() {
    let upper: [fn(&mut Order); 5] = [
        |order| order.features |= 0x0100,
        |order| order.count |= 0x8000,
        |order| order.lba_low |= 0x0100,
        |order| order.lba_mid |= 0x8000,
        |order| order.lba_high |= 0x0100,
    ];
    for change in upper {
        let mut one = short();
        change(&mut one);
        one.length = 1;
        refused(one);
        one.extend = 1;
        command_of(one);
    }
}

#[test]
fn resets_with_anything_else() {
    let more: [fn(&mut Order); 11] = [
        |order| order.length = 1,
        |order| order.features = 1,
        |order| order.count = 1,
        |order| order.lba_low = 1,
        |order| order.lba_mid = 1,
        |order| order.lba_high = 1,
        |order| order.device = 0x40,
        |order| order.command = 0xEC,
        |order| order.ck_cond = 1,
        |order| order.extend = 1,
        |order| order.direction = 1,
    ];
    for protocol in [0, 1] {
        for quiet_seconds in [0, 2, 6, 14] {
            let order = Order {
                protocol,
                quiet_seconds,
                ..reset()
            };
            command_of(order);
            for change in more {
                let mut one = order;
                change(&mut one);
                refused(one);
            }
        }
    }
}
