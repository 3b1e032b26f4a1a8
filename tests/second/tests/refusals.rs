//! Each row of the refusal table alone, with the edge on its other side.

mod common;

use common::*;
use second::{read_page83, roll, Record, Written};

const PAGE_83: [u8; 6] = [0x12, 0x01, 0x83, 0x00, 0xFF, 0x00];

#[test]
fn row_1_inquiry_sizes() {
    let ask = Ask::new(&PAGE_83);
    for size in [1, 511, 513, 1024] {
        ask.clone().block(&vec![0; size]).refused(1);
    }
    for size in [0, 19, 21, 24] {
        ask.clone().signature(&vec![0; size]).refused(1);
    }
    for size in [0, 27, 29] {
        ask.clone().texts(&vec![0; size]).refused(1);
    }
    for size in [0, 7, 8, 21] {
        ask.clone().sense(size).refused(1);
    }
    ask.sense(22).writes(&page_of_block_0());
}

fn page_of_block_0() -> Vec<u8> {
    let mut room = [0; 16];
    write_without_ports(&block_0(), &mut room);
    room.to_vec()
}

#[test]
fn row_1_pass_through_sizes() {
    for command in [C6.to_vec(), C12.to_vec()] {
        for size in [0, 10, 12] {
            Pass::new(&command).registers(&vec![0; size]).refused(1);
        }
        for size in [0, 21] {
            Pass::new(&command).sense(size).refused(1);
        }
        Pass::new(&command).sense(22).order();
    }
}

#[test]
fn row_1_completion_sizes() {
    for (registers, size) in [(0, 22), (10, 22), (12, 22), (11, 21), (11, 0)] {
        let mut record = some_record();
        let (answer, sense) = end(&mut record, &vec![0; registers], size);
        assert_eq!(answer, ended(1, 0xFF));
        assert_eq!(record, some_record());
        assert!(is_filled(&sense));
    }
}

#[test]
fn row_1_writer_block() {
    for size in [0, 511, 513] {
        let mut room = [FILL; 80];
        let written = write_without_ports(&vec![0; size], &mut room);
        assert_eq!(
            written,
            Written {
                number: 1,
                count: 0
            }
        );
        assert!(is_filled(&room));
    }
}

#[test]
fn row_1_roll() {
    for (bytes, places) in [(511, 64), (513, 64), (32_769, 64), (33_280, 65), (1024, 1)] {
        let mut rows = vec![9; places];
        let answer = roll(&vec![0; bytes], &mut rows);
        assert_eq!((answer.number, answer.blocks, answer.drives), (1, 0, 0));
        assert!(rows.iter().all(|&row| row == 9));
    }
}

#[test]
fn row_2_inquiry() {
    for size in 0..6 {
        Ask::new(&PAGE_83[..size]).refused(2);
    }
    let longer = [&PAGE_83[..], &[0xFF; 9]].concat();
    Ask::new(&longer).writes(&page_of_block_0());
}

#[test]
fn row_2_pass_through() {
    for size in 0..12 {
        Pass::new(&C6[..size]).refused(2);
    }
    for size in 0..16 {
        Pass::new(&C12[..size]).refused(2);
    }
    let longer = [&C6[..], &[0xFF; 9]].concat();
    assert_eq!(Pass::new(&longer).order(), Pass::new(&C6).order());
}

#[test]
fn row_3_every_other_opcode() {
    for opcode in 0..=255 {
        let mut command = [0; 16];
        command[0] = opcode;
        if opcode != 0x12 {
            Ask::new(&command).refused(3);
        }
        if opcode != 0xA1 && opcode != 0x85 {
            Pass::new(&command).refused(3);
        }
    }
}

#[test]
fn row_4_inquiry() {
    Ask::new(&[0x12, 0x01, 0x83, 0x00, 0xFF, 0x04]).refused(4);
    Ask::new(&[0x12, 0x00, 0x00, 0x00, 0xFF, 0x04]).refused(4);
    Ask::new(&[0x12, 0x03, 0x83, 0x00, 0xFF, 0x00]).refused(4);
    Ask::new(&[0x12, 0x02, 0x00, 0x00, 0xFF, 0x00]).refused(4);
    Ask::new(&[0x12, 0x00, 0x01, 0x00, 0xFF, 0x00]).refused(4);
    // Every other bit of bytes 1 and 5 is ignored.
    Ask::new(&[0x12, 0xFD, 0x83, 0x00, 0xFF, 0xFB]).writes(&page_of_block_0());
}

#[test]
fn row_4_pass_through() {
    Pass::new(&C6).byte(11, 0x04).refused(4);
    Pass::new(&C12).byte(15, 0x04).refused(4);
    Pass::new(&C6).byte(11, 0xFB).order();
    Pass::new(&C12).byte(15, 0xFB).order();
    // Byte 11 of the 16-byte form is no control byte, nor byte 10 of the other.
    Pass::new(&C12).byte(11, 0x04).order();
    Pass::new(&C6).byte(10, 0x04).order();
}

#[test]
fn row_5_every_other_page() {
    for page in 0..=255 {
        if ![0x00, 0x80, 0x83, 0x89].contains(&page) {
            Ask::new(&[0x12, 0x01, page, 0x00, 0xFF, 0x00]).refused(5);
        }
    }
}

#[test]
fn row_6_no_block() {
    for command in [
        [0x12, 0x00, 0x00, 0x00, 0xFF, 0x00],
        [0x12, 0x01, 0x80, 0x00, 0xFF, 0x00],
        [0x12, 0x01, 0x83, 0x00, 0xFF, 0x00],
        [0x12, 0x01, 0x83, 0x00, 0x00, 0x00],
    ] {
        Ask::new(&command).block(&[]).refused(6);
    }
    Ask::new(&[0x12, 0x01, 0x00, 0x00, 0xFF, 0x00])
        .block(&[])
        .writes(&[0x00, 0x00, 0x00, 0x04, 0x00, 0x80, 0x83, 0x89]);
}

#[test]
fn row_7_unusable_page_00() {
    let without_89: Vec<u8> = (0..=255).filter(|&code| code != 0x89).collect();
    let full = [&[0x05, 0x00, 0x00, 0xFF], &without_89[..]].concat();
    let replies: [&[u8]; 8] = [
        &[],
        &[0x05, 0x00, 0x00],
        &[0x05, 0x80, 0x00, 0x01, 0x00],
        &[0x05, 0x00, 0x00, 0x01],
        &[0x05, 0x00, 0x00, 0x03, 0x00, 0x83],
        &[0x05, 0x00, 0x00, 0x02, 0x00, 0x00],
        &[0x05, 0x00, 0x00, 0x03, 0x00, 0x83, 0x80],
        &full,
    ];
    for reply in replies {
        let page_00 = Ask::new(&[0x12, 0x01, 0x00, 0x01, 0x03, 0x00]);
        page_00.packet(reply).refused(7);
        let nothing = Ask::new(&[0x12, 0x01, 0x00, 0x00, 0x00, 0x00]);
        nothing.packet(reply).refused(7);
    }
}

#[test]
fn row_8_room() {
    Ask::new(&PAGE_83).room(15).refused(8);
    Ask::new(&PAGE_83).room(16).writes(&page_of_block_0());
    // What counts are the bytes to write, not the page.
    let five = [0x12, 0x01, 0x83, 0x00, 0x05, 0x00];
    Ask::new(&five).room(4).refused(8);
    Ask::new(&five).room(5).writes(&page_of_block_0()[..5]);
    let none = [0x12, 0x01, 0x83, 0x00, 0x00, 0x00];
    Ask::new(&none).room(0).writes(&[]);
    let page_00 = [0x12, 0x01, 0x00, 0x00, 0xFF, 0x00];
    Ask::new(&page_00)
        .packet(&[5, 0, 0, 1, 0])
        .room(5)
        .refused(8);
    let page_89 = [0x12, 0x01, 0x89, 0x02, 0x3C, 0x00];
    Ask::new(&page_89).packet(&[]).room(571).refused(8);
}

#[test]
fn row_8_writer() {
    for (block, size) in [(block_0(), 16), (zero_block(), 76)] {
        for less in 0..size {
            let mut room = vec![FILL; less];
            assert_eq!(
                write_without_ports(&block, &mut room),
                Written {
                    number: 8,
                    count: 0
                }
            );
            assert!(is_filled(&room));
        }
        let mut room = vec![FILL; size];
        assert_eq!(
            write_without_ports(&block, &mut room),
            Written {
                number: 0,
                count: size
            }
        );
    }
}

#[test]
fn row_9_protocols() {
    for protocol in 0..16 {
        let pass = Pass::new(&C6).byte(1, protocol << 1);
        if [2, 7, 12, 13, 14].contains(&protocol) {
            pass.refused(9);
        } else {
            assert_ne!(pass.run().0.number, 9);
        }
    }
}

#[test]
fn row_10_pending() {
    for protocol in [3, 4, 5, 6, 8, 9, 10, 11] {
        let byte_2 = match protocol {
            3 | 8 | 9 => 0x00,
            5 | 11 => 0x06,
            _ => 0x0E,
        };
        let pass = Pass::new(&C6).byte(1, protocol << 1).byte(2, byte_2);
        pass.order();
        pass.pending().refused(10);
    }
}

#[test]
fn row_11_t_length() {
    for protocol in [3, 8, 9] {
        for byte_2 in [0x01, 0x02, 0x03, 0x0A] {
            Pass::new(&C6)
                .byte(1, protocol << 1)
                .byte(2, byte_2)
                .refused(11);
        }
        // T_DIR is ignored.
        Pass::new(&C6).byte(1, protocol << 1).byte(2, 0x08).order();
    }
    for (protocol, byte_2) in [
        (4, 0x08),
        (10, 0x08),
        (5, 0x00),
        (11, 0x00),
        (6, 0x00),
        (6, 0x08),
    ] {
        Pass::new(&C6)
            .byte(1, protocol << 1)
            .byte(2, byte_2)
            .refused(11);
    }
}

#[test]
fn row_12_t_dir() {
    for (protocol, byte_2) in [(4, 0x06), (10, 0x06), (5, 0x0E), (11, 0x0E)] {
        Pass::new(&C6)
            .byte(1, protocol << 1)
            .byte(2, byte_2)
            .refused(12);
        let other = byte_2 ^ 0x08;
        Pass::new(&C6).byte(1, protocol << 1).byte(2, other).order();
    }
    for byte_2 in [0x06, 0x0E] {
        Pass::new(&C6).byte(1, 6 << 1).byte(2, byte_2).order();
    }
}

#[test]
fn row_13_length_zero() {
    // Features 0, count 0, and the host's own 0.
    for byte_2 in [0x09, 0x0D] {
        Pass::new(&C6).byte(2, byte_2).refused(13);
    }
    for byte_2 in [0x0A, 0x0E] {
        Pass::new(&C6).byte(2, byte_2).byte(4, 0).refused(13);
    }
    for byte_2 in [0x0B, 0x0F] {
        Pass::new(&C6).byte(2, byte_2).declared(0).refused(13);
    }
}

#[test]
fn row_14_above_declared() {
    Pass::new(&C6).declared(0).refused(14);
    Pass::new(&C6).declared(511).refused(14);
    Pass::new(&C6).declared(512).order();
    let bytes = Pass::new(&C6).byte(2, 0x0A).byte(4, 0xFF);
    bytes.clone().declared(254).refused(14);
    assert_eq!(bytes.declared(255).order().length, 255);
}

#[test]
fn row_15_nothing_pending() {
    let mut odd = some_record();
    odd.state = 0;
    for given in [Record::default(), odd] {
        let mut record = given;
        let (answer, sense) = end(&mut record, &REGISTERS, 30);
        assert_eq!(answer, ended(15, 0xFF));
        assert_eq!(record, given);
        assert!(is_filled(&sense));
    }
}

#[test]
fn row_16_not_a_page() {
    let read = read_page83(&[]);
    assert_eq!((read.number, read.form, read.name), (16, 0, [0; 60]));
}
