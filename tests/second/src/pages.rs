//! The full INQUIRY replies but page 83h, each before it is cut (RULES 6).

use crate::fault;
use crate::identify::{spaces_for_zeros, turned, turned_model, turned_serial, word};

/// The vendor text of every ATA drive.
pub const VENDOR: &[u8; 8] = b"ATA     ";

/// What page 89h shows of a drive that gave no block.
pub const NO_BLOCK: [u8; 512] = [0; 512];

/// Standard data (RULES 6.1). The product text is the model as it stands: only
/// the other pages are spaced.
pub fn standard_data(block: &[u8]) -> Vec<u8> {
    let removable = word(block, 0) & 0x0080 != 0;
    let mut page = vec![0x00, if removable { 0x80 } else { 0x00 }];
    page.extend([0x05, 0x02, 0x1F, 0x00, 0x00, 0x00]);
    page.extend(VENDOR);
    page.extend(&turned_model(block)[..16]);
    if fault::planted("product-zeros-made-spaces") {
        let product = spaces_for_zeros(&page[16..]);
        page[16..].copy_from_slice(&product);
    }
    page.extend(revision(block));
    page
}

/// The last four letters of the firmware's eight; where those are left blank,
/// the first four. A zero byte is no blank, and stays (RULES 6.1).
fn revision(block: &[u8]) -> Vec<u8> {
    let last = turned(block, 25, 26);
    let blank = last.iter().all(|&byte| byte == 0x20);
    let shown = if blank { turned(block, 23, 24) } else { last };
    spoilt_revision(block, shown)
}

/// The planted faults of the revision.
fn spoilt_revision(block: &[u8], shown: Vec<u8>) -> Vec<u8> {
    let (first, last) = (turned(block, 23, 24), turned(block, 25, 26));
    let blank = |byte: &u8| *byte == 0x20;
    let either = |use_first: bool| {
        if use_first {
            first.clone()
        } else {
            last.clone()
        }
    };
    if fault::planted("revision-left-blank") {
        return b"    ".to_vec();
    }
    if fault::planted("revision-from-23-24-first") {
        return either(!first.iter().all(blank));
    }
    if fault::planted("revision-from-24-25") {
        return turned(block, 24, 25);
    }
    if fault::planted("revision-not-turned") {
        return shown
            .chunks(2)
            .flat_map(|pair| [pair[1], pair[0]])
            .collect();
    }
    if fault::planted("revision-zeros-made-spaces") {
        return spaces_for_zeros(&shown);
    }
    if fault::planted("revision-second-choice-for-zeros") {
        return either(spaces_for_zeros(&last).iter().all(blank));
    }
    if fault::planted("revision-second-choice-for-some-spaces") {
        return either(last.iter().any(blank));
    }
    shown
}

/// The list of pages (RULES 6.2).
pub fn page00() -> Vec<u8> {
    vec![0x00, 0x00, 0x00, 0x04, 0x00, 0x80, 0x83, 0x89]
}

/// The serial number (RULES 6.3).
pub fn page80(block: &[u8]) -> Vec<u8> {
    let mut page = vec![0x00, 0x80, 0x00, 0x14];
    page.extend(spaces_for_zeros(&turned_serial(block)));
    page
}

/// What the board is and what the drive told of itself, its block as it came
/// (RULES 6.5).
pub fn page89(block: &[u8], signature: &[u8], texts: &[u8], packet: bool) -> Vec<u8> {
    let mut page = vec![type_byte(block, packet), 0x89, 0x02, 0x38];
    page.extend([0x00; 4]);
    page.extend(texts);
    page.extend(signature);
    page.push(command_code(packet));
    page.extend([0x00; 3]);
    page.extend(if block.is_empty() { &NO_BLOCK } else { block });
    if fault::planted("page-89h-turned") {
        let block = turned(&page[60..], 0, 255);
        page[60..].copy_from_slice(&block);
    }
    page
}

/// A packet drive's block says what kind of drive it is.
fn type_byte(block: &[u8], packet: bool) -> u8 {
    if packet && !block.is_empty() {
        ((word(block, 0) >> 8) & 0x1F) as u8
    } else {
        0x00
    }
}

/// The ATA command that fetched the block.
fn command_code(packet: bool) -> u8 {
    if packet {
        0xA1
    } else {
        0xEC
    }
}
