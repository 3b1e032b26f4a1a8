//! Pass-through orders field by field, protocol 15, and completion.

mod common;

use common::*;
use second::{Order, Record};

/// A 16-byte command with the given bytes 1 and 2 and unlike register bytes.
fn command_16(byte_1: u8, byte_2: u8) -> [u8; 16] {
    [
        0x85, byte_1, byte_2, 0x11, 0x12, 0x21, 0x22, 0x31, 0x32, 0x41, 0x42, 0x51, 0x52, 0x61,
        0x71, 0x00,
    ]
}

/// A 12-byte command with the given bytes 1 and 2 and unlike register bytes.
fn command_12(byte_1: u8, byte_2: u8) -> [u8; 12] {
    [
        0xA1, byte_1, byte_2, 0x12, 0x22, 0x32, 0x42, 0x52, 0x61, 0x71, 0xFF, 0x00,
    ]
}

fn order_of_low_bytes() -> Order {
    Order {
        features: 0x12,
        count: 0x22,
        lba_low: 0x32,
        lba_mid: 0x42,
        lba_high: 0x52,
        device: 0x61,
        command: 0x71,
        sectors_per_block: 1,
        protocol: 3,
        ..Order::default()
    }
}

#[test]
fn registers_of_both_forms() {
    let low = order_of_low_bytes();
    assert_eq!(Pass::new(&command_12(0x06, 0x00)).order(), low);
    // EXTEND is read in the 16-byte form only.
    assert_eq!(Pass::new(&command_12(0x07, 0x00)).order(), low);
    assert_eq!(Pass::new(&command_16(0x06, 0x00)).order(), low);
    let extended = Order {
        features: 0x1112,
        count: 0x2122,
        lba_low: 0x3132,
        lba_mid: 0x4142,
        lba_high: 0x5152,
        extend: 1,
        ..low
    };
    assert_eq!(Pass::new(&command_16(0x07, 0x00)).order(), extended);
}

#[test]
fn quiet_seconds_and_sectors_per_block() {
    for (off_line, seconds) in [(0, 0), (1, 2), (2, 6), (3, 14)] {
        let order = Pass::new(&command_12(0x06, off_line << 6)).order();
        assert_eq!(order.quiet_seconds, seconds);
    }
    for multiple_count in 0..8 {
        let order = Pass::new(&command_12((multiple_count << 5) | 0x06, 0x00)).order();
        assert_eq!(
            order.sectors_per_block,
            [1, 2, 4, 8, 16, 32, 64, 128][multiple_count as usize]
        );
    }
}

#[test]
fn ck_cond_and_ignored_bits() {
    let order = Pass::new(&command_12(0x06, 0x20)).order();
    assert_eq!(
        order,
        Order {
            ck_cond: 1,
            ..order_of_low_bytes()
        }
    );
    // Bit 4 has no name; T_DIR and BYTE_BLOCK do not count without data.
    assert_eq!(
        Pass::new(&command_12(0x06, 0x1C)).order(),
        order_of_low_bytes()
    );
}

#[test]
fn directions() {
    for (protocol, byte_2, direction) in [
        (4, 0x0A, 1),
        (10, 0x0A, 1),
        (5, 0x02, 2),
        (11, 0x02, 2),
        (6, 0x0A, 1),
        (6, 0x02, 2),
        (3, 0x08, 0),
        (8, 0x08, 0),
        (9, 0x00, 0),
    ] {
        let order = Pass::new(&command_12(protocol << 1, byte_2)).order();
        assert_eq!((order.protocol, order.direction), (protocol, direction));
    }
}

/// The direction comes from the protocol and T_DIR, never from the opcode.
#[test]
fn direction_is_not_taken_from_the_drive_command() {
    for drive_command in 0..=255 {
        let health = Pass::new(&C6).byte(9, drive_command).order();
        assert_eq!((health.direction, health.command), (1, drive_command));
    }
}

#[test]
fn lengths() {
    for (extend, byte_2, length) in [
        (0, 0x09, 0x12),
        (0, 0x0A, 0x22),
        (0, 0x0D, 0x12 * 512),
        (0, 0x0E, 0x22 * 512),
        (1, 0x09, 0x1112),
        (1, 0x0A, 0x2122),
        (1, 0x0D, 0x1112 * 512),
        (1, 0x0E, 0x2122 * 512),
    ] {
        let pass = Pass::new(&command_16(0x08 | extend, byte_2));
        assert_eq!(pass.clone().declared(length).order().length, length);
        pass.declared(length - 1).refused(14);
    }
    for byte_2 in [0x0B, 0x0F] {
        for declared in [1, 512, u32::MAX] {
            let order = Pass::new(&command_16(0x08, byte_2))
                .declared(declared)
                .order();
            assert_eq!(order.length, declared);
        }
    }
}

/// With EXTEND zero a count that is zero but for its upper byte is 0.
#[test]
fn upper_count_alone() {
    let mut command = command_16(0x08, 0x0E);
    command[6] = 0x00;
    Pass::new(&command).refused(13);
    command[1] = 0x09;
    assert_eq!(Pass::new(&command).order().length, 0x2100 * 512);
}

#[test]
fn resets_read_protocol_and_off_line_only() {
    for protocol in [0, 1] {
        let wanted = Order {
            protocol,
            quiet_seconds: 14,
            sectors_per_block: 1,
            ..Order::default()
        };
        let byte_1 = 0xE1 | (protocol << 1);
        assert_eq!(
            Pass::new(&command_16(byte_1, 0xFF)).declared(0).order(),
            wanted
        );
        assert_eq!(
            Pass::new(&command_12(byte_1, 0xFF)).declared(0).order(),
            wanted
        );
    }
}

const RESPONSE: [u8; 11] = [0x84, 0xF1, 2, 0xF3, 4, 0xF5, 6, 0xF7, 8, 0xE0, 0x71];

fn descriptor(head: [u8; 3], extend: u8, registers: [u8; 11]) -> Vec<u8> {
    let mut sense = vec![
        0x72, head[0], head[1], head[2], 0, 0, 0, 0x0E, 0x09, 0x0C, extend,
    ];
    sense.extend(registers);
    sense
}

const RESPONSE_28: [u8; 11] = [0x84, 0, 2, 0, 4, 0, 6, 0, 8, 0xE0, 0x71];

#[test]
fn protocol_15() {
    for pass in [
        Pass::new(&command_16(0x1F, 0xFF)),
        Pass::new(&command_12(0x1E, 0x00)),
        Pass::new(&command_16(0x1F, 0xFF)).pending(),
    ] {
        let pass = pass.declared(0).registers(&RESPONSE).form(2);
        let (taken, record, sense) = pass.run();
        assert_eq!((taken.number, taken.status), (0, 0x02));
        assert_eq!(taken.order, Order::default());
        assert_eq!(record, pass.record);
        check_sense(&descriptor([0x01, 0x00, 0x1D], 0, RESPONSE_28), &sense);
    }
}

fn pending(ck_cond: u8, extend: u8) -> Record {
    let order = Order {
        ck_cond,
        extend,
        ..some_record().order
    };
    Record {
        state: 1,
        order,
        ..Record::default()
    }
}

fn check_end(record: Record, registers: [u8; 11], status: u8, wanted: &[u8]) {
    let mut record = record;
    let (answer, sense) = end(&mut record, &registers, 30);
    assert_eq!(answer, ended(0, status));
    check_sense(wanted, &sense);
    assert_eq!(record, Record::default());
}

#[test]
fn completion_with_an_error() {
    for status in [0x01, 0x20, 0x21, 0x71, 0xFF] {
        for ck_cond in [0, 1, 0x80] {
            let mut full = RESPONSE;
            full[10] = status;
            let mut cut = RESPONSE_28;
            cut[10] = status;
            let head = [0x0B, 0x00, 0x00];
            check_end(pending(ck_cond, 0), full, 0x02, &descriptor(head, 0, cut));
            check_end(pending(ck_cond, 1), full, 0x02, &descriptor(head, 1, full));
            check_end(
                pending(ck_cond, 0xFE),
                full,
                0x02,
                &descriptor(head, 1, full),
            );
        }
    }
}

#[test]
fn completion_without_an_error() {
    for status in [0x00, 0x50, 0xDE] {
        let mut full = RESPONSE;
        full[10] = status;
        let mut cut = RESPONSE_28;
        cut[10] = status;
        let head = [0x01, 0x00, 0x1D];
        check_end(pending(0, 1), full, 0x00, &[]);
        check_end(pending(1, 0), full, 0x02, &descriptor(head, 0, cut));
        check_end(pending(0x10, 1), full, 0x02, &descriptor(head, 1, full));
    }
}

/// Orders one after the other: each is served as the first was.
#[test]
fn the_record_serves_again_and_again() {
    let mut given = Record::default();
    for count in 1..=200 {
        let mut pass = Pass::new(&C6).byte(4, count);
        pass.record = given;
        let order = pass.order();
        assert_eq!(order.length, u32::from(count) * 512);
        let mut record = Record {
            state: 1,
            order,
            ..Record::default()
        };
        let (answer, _) = end(&mut record, &REGISTERS, 22);
        assert_eq!(answer, ended(0, 0));
        given = record;
    }
}

/// A record from outside: fields without a pending state do not count.
#[test]
fn an_order_fills_a_record_that_holds_odd_numbers() {
    let mut pass = Pass::new(&C6);
    pass.record = Record {
        state: 0,
        ..some_record()
    };
    assert_eq!(pass.order(), Pass::new(&C6).order());
}
