//! C1 to C13 and the other soundings (RULES 13).

mod common;

use common::*;
use second::{roll, rollcall, Record, Roll};

const C1_REPLY: [u8; 16] = [
    0x00, 0x83, 0x00, 0x0C, 0x01, 0x03, 0x00, 0x08, 0x50, 0x00, 0xC5, 0x00, 0x12, 0x34, 0x56, 0x78,
];

#[test]
fn c1_world_wide_name() {
    Ask::new(&[0x12, 0x01, 0x83, 0x00, 0xFF, 0x00]).writes(&C1_REPLY);
}

#[test]
fn c2_allocation_5() {
    Ask::new(&[0x12, 0x01, 0x83, 0x00, 0x05, 0x00]).writes(&[0x00, 0x83, 0x00, 0x0C, 0x01]);
}

#[test]
fn c3_allocation_0() {
    Ask::new(&[0x12, 0x01, 0x83, 0x00, 0x00, 0x00]).writes(&[]);
}

#[test]
fn c4_page_code_without_evpd() {
    Ask::new(&[0x12, 0x00, 0x80, 0x00, 0xFF, 0x00]).refused(4);
}

#[test]
fn c5_unknown_page() {
    Ask::new(&[0x12, 0x01, 0xB0, 0x00, 0xFF, 0x00]).refused(5);
}

#[test]
fn c6_identify() {
    let order = Pass::new(&C6).declared(512).order();
    assert_eq!((order.direction, order.length), (1, 512));
    assert_eq!((order.protocol, order.command, order.count), (4, 0xEC, 1));
}

#[test]
fn c7_declared_511() {
    Pass::new(&C6).declared(511).refused(14);
}

#[test]
fn c8_to_the_drive() {
    Pass::new(&C6).declared(512).byte(2, 0x06).refused(12);
}

#[test]
fn c9_no_length() {
    Pass::new(&C6).declared(512).byte(2, 0x0C).refused(11);
}

#[test]
fn c10_count_0() {
    Pass::new(&C6).declared(512).byte(4, 0x00).refused(13);
}

#[test]
fn c11_protocol_2() {
    Pass::new(&C6).declared(512).byte(1, 0x04).refused(9);
}

#[test]
fn c12_check_power_mode_in_the_descriptor_form() {
    let (taken, mut record, _) = Pass::new(&C12).declared(0).form(2).run();
    assert_eq!((taken.number, taken.status), (0, 0xFF));
    let (answer, sense) = end_in_form(2, &mut record, &REGISTERS, 30);
    assert_eq!(answer, ended(0, 0x02));
    let wanted = [
        0x72, 0x01, 0x00, 0x1D, 0x00, 0x00, 0x00, 0x0E, 0x09, 0x0C, 0x00, 0x00, 0x00, 0xFF, 0x00,
        0x00, 0x00, 0x00, 0x00, 0x00, 0x00, 0x50,
    ];
    assert_eq!(&sense[..22], &wanted);
    assert!(is_filled(&sense[22..]));
    assert_eq!(record, Record::default());
}

#[test]
fn c13_no_command_bytes() {
    Ask::new(&[]).refused(2);
    Pass::new(&[]).refused(2);
}

#[test]
fn room_of_571_and_572_for_page_89() {
    let ask = Ask::new(&[0x12, 0x01, 0x89, 0x02, 0x3C, 0x00]);
    ask.clone().room(571).refused(8);
    let (answer, room, _) = ask.room(572).run();
    assert_eq!(
        (answer.number, answer.status, answer.shown, answer.count),
        (0, 0, 1, 572)
    );
    assert_eq!(&room[60..572], &block_0());
}

#[test]
fn roll_of_0_64_and_65_blocks() {
    let mut rows = [9; 66];
    let empty = roll(&[], &mut rows);
    assert_eq!(
        empty,
        Roll {
            number: 0,
            blocks: 0,
            drives: 0
        }
    );
    assert_eq!(rows, [9; 66]);

    let refused = roll(&vec![0; 65 * 512], &mut rows);
    assert_eq!(
        refused,
        Roll {
            number: 1,
            blocks: 0,
            drives: 0
        }
    );
    assert_eq!(rows, [9; 66]);

    let full = roll(&vec![0; 64 * 512], &mut rows);
    assert_eq!(
        full,
        Roll {
            number: 0,
            blocks: 64,
            drives: 1
        }
    );
    assert_eq!(rows[..64], [1; 64]);
    assert_eq!(rows[64..], [9; 2]);
}

#[test]
fn extend_count_ffff_blocks() {
    let mut command = [0; 16];
    command[..3].copy_from_slice(&[0x85, 0x0D, 0x06]);
    command[5..7].copy_from_slice(&[0xFF, 0xFF]);
    let order = Pass::new(&command).declared(33_553_920).order();
    assert_eq!(
        (order.length, order.direction, order.extend),
        (33_553_920, 2, 1)
    );
    Pass::new(&command).declared(33_553_919).refused(14);
}

#[test]
fn rollcall_sample() {
    let mut block_1 = block_0();
    block_1[20] = 0x41;
    let input = [block_0(), block_1, zero_block()].concat();
    assert_eq!(
        rollcall(&input),
        "blocks 3 drives 2\n0 1 wwn\n1 1 wwn\n2 2 text\n"
    );
}

#[test]
fn rollcall_empty_and_refused() {
    assert_eq!(rollcall(&[]), "blocks 0 drives 0\n");
    assert_eq!(rollcall(&[0; 511]), "refused 1\n");
    assert_eq!(rollcall(&vec![0; 65 * 512]), "refused 1\n");
    assert_eq!(rollcall(&vec![0; 32_769]), "refused 1\n");
}

/// `testing/sg_sense_test.c` of sg3_utils 1.46, `err6`: a status return descriptor.
#[test]
fn published_status_return() {
    let mut command = [0; 16];
    command[..3].copy_from_slice(&[0x85, 0x07, 0x20]);
    let (_, mut record, _) = Pass::new(&command).declared(0).form(2).run();
    let registers = [
        0x00, 0x11, 0x22, 0x66, 0x33, 0x77, 0x44, 0x88, 0x55, 0x01, 0x02,
    ];
    let (_, sense) = end_in_form(2, &mut record, &registers, 22);
    let published = [
        0x00, 0x00, 0x00, 0x0E, 0x09, 0x0C, 0x01, 0x00, 0x11, 0x22, 0x66, 0x33, 0x77, 0x44, 0x88,
        0x55, 0x01, 0x02,
    ];
    assert_eq!(sense[4..], published);
}

/// `inhex/vpd_dev_id.hex` of sg3_utils 1.46: the first descriptor of a disk's page 83h.
#[test]
fn published_name() {
    let mut block = block_0();
    block[216..224].copy_from_slice(&[0x00, 0x50, 0x00, 0xC5, 0x11, 0x30, 0x2B, 0xCB]);
    Ask::new(&[0x12, 0x01, 0x83, 0x00, 0xFF, 0x00])
        .block(&block)
        .writes(&[
            0x00, 0x83, 0x00, 0x0C, 0x01, 0x03, 0x00, 0x08, 0x50, 0x00, 0xC5, 0x00, 0x30, 0x11,
            0xCB, 0x2B,
        ]);
}
