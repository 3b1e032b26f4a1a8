//! The INQUIRY replies byte by byte, of plain and of packet drives.

mod common;

use common::*;

/// Standard data of a block whose model bytes stand at 54 to 93.
#[test]
fn standard_data() {
    let mut block = text_block();
    block[0] = 0x00;
    block[46..54].copy_from_slice(b"WF0 1300");
    block[54..70].copy_from_slice(b"eHrrni gT8B\0 x-1");
    let mut wanted = vec![0x00, 0x00, 0x05, 0x02, 0x1F, 0x00, 0x00, 0x00];
    wanted.extend(b"ATA     ");
    wanted.extend(b"Herring 8T\0Bx 1-");
    wanted.extend(b"3100");
    let ask = Ask::new(&[0x12, 0x00, 0x00, 0x00, 0xFF, 0x00]);
    ask.clone().block(&block).writes(&wanted);
    // Word 0 bit 7 is bit 7 of byte 0, and no other bit of word 0 counts.
    block[0] = 0x7F;
    block[1] = 0xFF;
    ask.clone().block(&block).writes(&wanted);
    block[0] = 0x80;
    block[1] = 0x00;
    wanted[1] = 0x80;
    ask.block(&block).writes(&wanted);
}

/// Words 25-26, and words 23-24 where those are four spaces and nothing else.
#[test]
fn revision_level() {
    let cases: [(&[u8; 8], &[u8; 4]); 9] = [
        (b"badcfehg", b"efgh"),
        (b"badc    ", b"abcd"),
        (b"badc   g", b"  g "),
        (b"badcf   ", b" f  "),
        (b"badc\0\0\0\0", b"\0\0\0\0"),
        (b"badc  \0 ", b"   \0"),
        (b"b\0\0c    ", b"\0bc\0"),
        (b"        ", b"    "),
        (b"\0\0\0\0    ", b"\0\0\0\0"),
    ];
    for (firmware, wanted) in cases {
        let mut block = text_block();
        block[46..54].copy_from_slice(firmware);
        let ask = Ask::new(&[0x12, 0x00, 0x00, 0x00, 0xFF, 0x00]).block(&block);
        let (answer, room, _) = ask.run();
        assert_eq!((answer.number, answer.count), (0, 36));
        assert_eq!(&room[32..36], wanted);
    }
}

#[test]
fn page_00() {
    let wanted = [0x00, 0x00, 0x00, 0x04, 0x00, 0x80, 0x83, 0x89];
    Ask::new(&[0x12, 0x01, 0x00, 0x00, 0xFF, 0x00]).writes(&wanted);
    Ask::new(&[0x12, 0x01, 0x00, 0x00, 0x06, 0x00]).writes(&wanted[..6]);
}

#[test]
fn page_80() {
    let mut block = zero_block();
    block[20..26].copy_from_slice(b"1S2\0\x004");
    let mut wanted = vec![0x00, 0x80, 0x00, 0x14];
    wanted.extend(b"S1 24               ");
    assert_eq!(wanted.len(), 24);
    Ask::new(&[0x12, 0x01, 0x80, 0x00, 0xFF, 0x00])
        .block(&block)
        .writes(&wanted);
}

#[test]
fn page_83_text() {
    let mut block = text_block();
    block[54] = 0;
    block[39] = 0;
    let mut wanted = vec![0x00, 0x83, 0x00, 0x48, 0x02, 0x01, 0x00, 0x44];
    wanted.extend(b"ATA     ");
    for at in (54..94).step_by(2).chain((20..40).step_by(2)) {
        wanted.extend([block[at + 1], block[at]]);
    }
    wanted[17] = 0x20;
    wanted[74] = 0x20;
    let ask = Ask::new(&[0x12, 0x01, 0x83, 0x00, 0xFF, 0x00]).block(&block);
    ask.clone().writes(&wanted);
    ask.room(76).writes(&wanted);
}

/// Any one bit of the name decides, in each of its 64 places.
#[test]
fn page_83_of_each_name_bit() {
    for bit in 0..64 {
        let mut block = text_block();
        block[174..176].copy_from_slice(&NAMED);
        block[216 + bit / 8] = 1 << (bit % 8);
        let mut wanted = vec![0x00, 0x83, 0x00, 0x0C, 0x01, 0x03, 0x00, 0x08];
        for at in [217, 216, 219, 218, 221, 220, 223, 222] {
            wanted.push(block[at]);
        }
        Ask::new(&[0x12, 0x01, 0x83, 0x00, 0xFF, 0x00])
            .block(&block)
            .writes(&wanted);
    }
}

/// A name is shown for the values of word 87 that say so, and no others.
#[test]
fn page_83_of_every_word_87() {
    let page_83 = Ask::new(&[0x12, 0x01, 0x83, 0x00, 0x04, 0x00]);
    for word in 0..=0xFFFF_u16 {
        let mut block = block_0();
        block[174..176].copy_from_slice(&word.to_le_bytes());
        let named = word & 0x8000 == 0 && word & 0x4000 != 0 && word & 0x0100 != 0;
        let length = if named { 0x0C } else { 0x48 };
        let ask = page_83.clone().block(&block);
        ask.writes(&[0x00, 0x83, 0x00, length]);
        block[216..224].fill(0);
        ask.block(&block).writes(&[0x00, 0x83, 0x00, 0x48]);
    }
}

fn wanted_89(kind: u8, code: u8, signature: &[u8], block: &[u8]) -> Vec<u8> {
    let mut wanted = vec![kind, 0x89, 0x02, 0x38, 0, 0, 0, 0];
    wanted.extend(texts());
    wanted.extend(signature);
    wanted.extend([code, 0, 0, 0]);
    wanted.extend(block);
    assert_eq!(wanted.len(), 572);
    wanted
}

#[test]
fn page_89_of_a_plain_drive() {
    let mut block = text_block();
    block[1] = 0xFF;
    let signature: [u8; 20] = std::array::from_fn(|at| 0x80 + at as u8);
    let ask = Ask::new(&[0x12, 0x01, 0x89, 0xFF, 0xFF, 0x00]).signature(&signature);
    ask.clone()
        .block(&block)
        .writes(&wanted_89(0x00, 0xEC, &signature, &block));
    ask.block(&[])
        .writes(&wanted_89(0x00, 0xEC, &signature, &[0; 512]));
}

#[test]
fn page_89_of_a_packet_drive() {
    let mut block = text_block();
    block[1] = 0xE5;
    let ask = Ask::new(&[0x12, 0x01, 0x89, 0x02, 0x3C, 0x00]).packet(&[1, 2, 3]);
    let signature = packet_signature();
    ask.clone()
        .block(&block)
        .writes(&wanted_89(0x05, 0xA1, &signature, &block));
    block[1] = 0xFF;
    ask.clone()
        .block(&block)
        .writes(&wanted_89(0x1F, 0xA1, &signature, &block));
    ask.block(&[])
        .writes(&wanted_89(0x00, 0xA1, &signature, &[0; 512]));
}

/// A cut leaves the length fields as they are, at every allocation length.
#[test]
fn page_89_at_every_cut() {
    let whole = wanted_89(0x00, 0xEC, &PLAIN, &block_0());
    for n in 0..=600_u16 {
        let [high, low] = n.to_be_bytes();
        let ask = Ask::new(&[0x12, 0x01, 0x89, high, low, 0x00]);
        let cut = usize::from(n).min(572);
        ask.clone().room(cut).writes(&whole[..cut]);
        if cut > 0 {
            ask.room(cut - 1).refused(8);
        }
    }
}

#[test]
fn only_bytes_5_and_6_make_a_packet_drive() {
    let page_00 = [0x12, 0x01, 0x00, 0x00, 0xFF, 0x00];
    let plain = [0x00, 0x00, 0x00, 0x04, 0x00, 0x80, 0x83, 0x89];
    for (mid, high) in [
        (0x14, 0x00),
        (0x00, 0xEB),
        (0xEB, 0x14),
        (0x15, 0xEB),
        (0x14, 0xEA),
    ] {
        let mut signature = [0xFF; 20];
        signature[5] = mid;
        signature[6] = high;
        Ask::new(&page_00).signature(&signature).writes(&plain);
    }
    let mut signature = [0xFF; 20];
    signature[5..7].copy_from_slice(&[0x14, 0xEB]);
    let mut ask = Ask::new(&page_00).packet(&[0, 0, 0, 0]);
    ask.signature = signature.to_vec();
    ask.writes(&[0, 0, 0, 1, 0x89]);
}

#[test]
fn what_passes_through() {
    let reply: Vec<u8> = (0..60).collect();
    for (evpd, page) in [
        (0, 0x00),
        (0, 0x89),
        (1, 0x80),
        (1, 0x83),
        (3, 0x00),
        (3, 0x89),
        (2, 0),
    ] {
        let ask = Ask::new(&[0x12, evpd, page, 0x00, 0x24, 0x00])
            .packet(&reply)
            .room(0);
        ask.passes(36);
        let more = Ask::new(&[0x12, evpd, page, 0x01, 0x00, 0x00]).packet(&reply);
        more.passes(60);
        let none = Ask::new(&[0x12, evpd, page, 0x00, 0x00, 0x00]).packet(&reply);
        none.passes(0);
        let empty = Ask::new(&[0x12, evpd, page, 0x00, 0x24, 0x00]).packet(&[]);
        empty.passes(0);
    }
}

fn packet_page_00(reply: &[u8], wanted: &[u8]) {
    let command = [0x12, 0x01, 0x00, 0x7F, 0xFF, 0x00];
    Ask::new(&command).packet(reply).writes(wanted);
    Ask::new(&command)
        .packet(reply)
        .room(wanted.len())
        .writes(wanted);
    Ask::new(&[0x12, 0x01, 0x00, 0x00, 0x00, 0x00])
        .packet(reply)
        .room(0)
        .writes(&[]);
}

#[test]
fn packet_drive_page_00() {
    // Behind, before and between; bytes 0 and 2 kept; the rest dropped.
    packet_page_00(&[5, 0, 7, 2, 0, 0x83, 9, 9], &[5, 0, 7, 3, 0, 0x83, 0x89]);
    packet_page_00(&[5, 0, 0, 1, 0xB0], &[5, 0, 0, 2, 0x89, 0xB0]);
    packet_page_00(&[5, 0, 0, 2, 0x88, 0x8A], &[5, 0, 0, 3, 0x88, 0x89, 0x8A]);
    // Not twice; an empty list.
    packet_page_00(&[5, 0, 0, 2, 0, 0x89], &[5, 0, 0, 2, 0, 0x89]);
    packet_page_00(&[0x9F, 0, 0xFF, 0], &[0x9F, 0, 0xFF, 1, 0x89]);
}

#[test]
fn packet_drive_page_00_at_its_full_sizes() {
    let with_89: Vec<u8> = (1..=255).collect();
    let whole = [&[5, 0, 0, 0xFF], &with_89[..]].concat();
    packet_page_00(&whole, &whole);
    // 254 codes without 89h become these 255.
    let without: Vec<u8> = (1..=255).filter(|&code| code != 0x89).collect();
    packet_page_00(&[&[5, 0, 0, 0xFE], &without[..]].concat(), &whole);
}
