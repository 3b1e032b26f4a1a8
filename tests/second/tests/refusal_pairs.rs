//! Pairs of refusals that both apply: the one whose check is made first answers
//! (RULES 3).

mod common;

use common::*;
use second::{Record, Written};

#[test]
fn inquiry_1_before_all() {
    let commands: [&[u8]; 6] = [
        &[],
        &[0x00],
        &[0x12],
        &[0x12, 0x00, 0x80, 0x00, 0xFF, 0x00],
        &[0x12, 0x01, 0xB0, 0x00, 0xFF, 0x00],
        &[0x12, 0x01, 0x83, 0x00, 0xFF, 0x00],
    ];
    for command in commands {
        Ask::new(command).texts(&[]).room(0).refused(1);
        Ask::new(command).sense(21).room(0).refused(1);
        Ask::new(command).block(&[]).signature(&[]).refused(1);
    }
    // 7 of a packet drive, and what would pass through.
    Ask::new(&[0x12, 0x01, 0x00, 0x00, 0xFF, 0x00])
        .packet(&[])
        .texts(&[])
        .refused(1);
    Ask::new(&[0x12, 0x00, 0x00, 0x00, 0xFF, 0x00])
        .packet(&[])
        .block(&[0])
        .refused(1);
}

#[test]
fn inquiry_opcode_before_short() {
    Ask::new(&[0x00]).refused(3);
    Ask::new(&[0xA1, 0x01]).refused(3);
}

#[test]
fn inquiry_short_before_4_5_6_and_8() {
    Ask::new(&[0x12, 0x03, 0x83, 0x00, 0xFF]).refused(2);
    Ask::new(&[0x12, 0x01, 0xB0, 0x00, 0xFF]).refused(2);
    Ask::new(&[0x12, 0x00, 0x00, 0x00, 0xFF])
        .block(&[])
        .refused(2);
    Ask::new(&[0x12, 0x00, 0x00, 0x00, 0xFF]).room(0).refused(2);
}

#[test]
fn inquiry_short_before_the_packet_rules() {
    Ask::new(&[]).packet(&[]).refused(2);
    Ask::new(&[0x00]).packet(&[]).refused(3);
    Ask::new(&[0x12, 0x01, 0x00, 0x00, 0xFF])
        .packet(&[])
        .refused(2);
    Ask::new(&[0x12, 0x01, 0x83, 0x00, 0xFF])
        .packet(&[1; 9])
        .refused(2);
}

#[test]
fn inquiry_4_before_5_6_and_8() {
    Ask::new(&[0x12, 0x03, 0xB0, 0x00, 0xFF, 0x00]).refused(4);
    Ask::new(&[0x12, 0x01, 0xB0, 0x00, 0xFF, 0x04]).refused(4);
    Ask::new(&[0x12, 0x00, 0x00, 0x00, 0xFF, 0x04])
        .block(&[])
        .refused(4);
    Ask::new(&[0x12, 0x00, 0x80, 0x00, 0xFF, 0x00])
        .block(&[])
        .refused(4);
    Ask::new(&[0x12, 0x00, 0x80, 0x00, 0xFF, 0x00])
        .room(0)
        .refused(4);
}

#[test]
fn inquiry_5_before_8() {
    Ask::new(&[0x12, 0x01, 0xB0, 0x00, 0xFF, 0x00])
        .block(&[])
        .room(0)
        .refused(5);
}

#[test]
fn inquiry_6_before_8() {
    Ask::new(&[0x12, 0x01, 0x83, 0x00, 0xFF, 0x00])
        .block(&[])
        .room(0)
        .refused(6);
}

#[test]
fn inquiry_7_before_8() {
    Ask::new(&[0x12, 0x01, 0x00, 0x00, 0xFF, 0x00])
        .packet(&[])
        .room(0)
        .refused(7);
}

#[test]
fn packet_drives_skip_4_to_6() {
    // NACA with page 00h and 89h, which are served here.
    Ask::new(&[0x12, 0x01, 0x00, 0x00, 0xFF, 0x04])
        .packet(&[0x05, 0x00, 0x00, 0x00])
        .writes(&[0x05, 0x00, 0x00, 0x01, 0x89]);
    Ask::new(&[0x12, 0x01, 0x00, 0x00, 0xFF, 0x04])
        .packet(&[])
        .refused(7);
    Ask::new(&[0x12, 0x01, 0x89, 0x02, 0x3C, 0x04])
        .packet(&[])
        .room(571)
        .refused(8);
    // CMDDT, a page code without EVPD, an unknown page, no block.
    for command in [
        [0x12, 0x03, 0x00, 0x00, 0xFF, 0x04],
        [0x12, 0x00, 0x80, 0x00, 0xFF, 0x00],
        [0x12, 0x01, 0xB0, 0x00, 0xFF, 0x00],
        [0x12, 0x01, 0x83, 0x00, 0xFF, 0x00],
    ] {
        Ask::new(&command)
            .packet(&[7; 9])
            .block(&[])
            .room(0)
            .passes(9);
    }
}

#[test]
fn pass_through_1_before_all() {
    let commands: [&[u8]; 5] = [&[], &[0x00], &[0xA1], &[0xA1; 12], &C6];
    for command in commands {
        Pass::new(command)
            .pending()
            .registers(&[0; 10])
            .declared(0)
            .refused(1);
        Pass::new(command)
            .pending()
            .sense(21)
            .declared(0)
            .refused(1);
    }
}

#[test]
fn pass_through_2_and_3() {
    Pass::new(&[]).pending().refused(2);
    Pass::new(&[0x12, 0x04]).pending().refused(3);
    // Short before 4 (at byte 11 of 16), 9, 10 and 11.
    Pass::new(&C12[..15]).byte(11, 0x04).refused(2);
    Pass::new(&C6[..11]).byte(1, 0x04).refused(2);
    Pass::new(&C6[..11]).pending().refused(2);
    Pass::new(&C6[..11]).byte(2, 0x0C).refused(2);
    // 12 bytes are enough for A1h alone.
    Pass::new(&C12[..12]).refused(2);
}

#[test]
fn pass_through_4_before_9_to_14() {
    let naca = Pass::new(&C6).byte(11, 0x04);
    naca.clone().byte(1, 0x04).refused(4);
    naca.clone().pending().refused(4);
    naca.clone().byte(2, 0x0C).refused(4);
    naca.clone().byte(2, 0x06).refused(4);
    naca.clone().byte(4, 0x00).refused(4);
    naca.clone().declared(0).refused(4);
    // Protocols 0, 1 and 15 read the control byte too.
    for protocol in [0, 1, 15] {
        naca.clone().byte(1, protocol << 1).refused(4);
        naca.clone().byte(1, protocol << 1).pending().refused(4);
    }
}

#[test]
fn pass_through_9_before_10_to_14() {
    for protocol in [2, 7, 12, 13, 14] {
        let pass = Pass::new(&C6).byte(1, protocol << 1);
        pass.clone().pending().refused(9);
        pass.clone().byte(2, 0x0C).refused(9);
        pass.clone().byte(2, 0x06).refused(9);
        pass.clone().byte(4, 0x00).refused(9);
        pass.declared(0).refused(9);
    }
}

#[test]
fn pass_through_10_before_11_to_14() {
    let pending = Pass::new(&C6).pending();
    pending.clone().byte(2, 0x0C).refused(10);
    pending.clone().byte(2, 0x06).refused(10);
    pending.clone().byte(4, 0x00).refused(10);
    pending.declared(0).refused(10);
}

#[test]
fn pass_through_11_before_12_to_14() {
    // T_LENGTH 0 and the wrong T_DIR; its length would be 0 too.
    Pass::new(&C6).byte(2, 0x04).declared(0).refused(11);
    Pass::new(&C6).byte(1, 0x0A).byte(2, 0x0C).refused(11);
    // Protocol 3 with a length above the declared one.
    Pass::new(&C6).byte(1, 0x06).declared(0).refused(11);
}

#[test]
fn pass_through_12_before_13_and_14() {
    Pass::new(&C6).byte(2, 0x06).byte(4, 0x00).refused(12);
    Pass::new(&C6).byte(2, 0x06).declared(0).refused(12);
    Pass::new(&C6).byte(2, 0x07).declared(0).refused(12);
}

#[test]
fn completion_1_before_15() {
    let mut record = Record::default();
    let (answer, sense) = end(&mut record, &[0; 10], 30);
    assert_eq!(answer, ended(1, 0xFF));
    let (answer, _) = end(&mut record, &REGISTERS, 21);
    assert_eq!(answer, ended(1, 0xFF));
    assert!(is_filled(&sense));
}

#[test]
fn writer_1_before_8() {
    assert_eq!(
        write_without_ports(&[0; 511], &mut []),
        Written {
            number: 1,
            count: 0
        }
    );
}
