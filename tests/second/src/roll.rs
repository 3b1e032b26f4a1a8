//! The roll of drives, and the text of the program `rollcall` (RULES 11).

use crate::identify::{has_name, has_name_bits, is_damaged, space_for_zero, word};
use crate::{fault, refusal};

const BLOCK: usize = 512;

/// What the roll came to: how many blocks, and how many different drives.
#[derive(Clone, Copy, Debug, Default, PartialEq, Eq)]
pub struct Roll {
    pub number: u8,
    pub blocks: u16,
    pub drives: u16,
}

/// Gives each block its row. A drive that was not seen before has the next
/// free number.
pub fn roll(blocks: &[u8], rows: &mut [u16]) -> Roll {
    if !sizes_are_right(blocks, rows) || fault::planted("roll-refuses-all") {
        return refuse(refusal::SIZE);
    }
    let blocks: Vec<&[u8]> = blocks.chunks(BLOCK).collect();
    if one_is_damaged(&blocks) {
        spoil_refused(&blocks, rows);
        return refuse(refusal::DAMAGED);
    }
    let lent = rows.to_vec();
    let mut drives = 0;
    for at in 0..blocks.len() {
        match (0..at).find(|&before| same_drive(blocks[before], blocks[at])) {
            Some(before) => rows[at] = rows[before],
            None => {
                drives += 1;
                rows[at] = drives;
            }
        }
    }
    spoil(&lent, blocks.len(), rows, &mut drives);
    Roll {
        number: refusal::ACCEPTED,
        blocks: blocks.len() as u16,
        drives,
    }
}

fn refuse(number: u8) -> Roll {
    Roll {
        number,
        blocks: 0,
        drives: 0,
    }
}

/// 18: the roll is refused whole, since a damaged block would be a drive that
/// is not there (RULES 11). And the planted faults of that.
fn one_is_damaged(blocks: &[&[u8]]) -> bool {
    let asked = match blocks.len() {
        0 => blocks,
        _ if fault::planted("roll-takes-damage") => &[],
        _ if fault::planted("damage-of-the-first-block") => &blocks[..1],
        last if fault::planted("damage-of-the-last-block") => &blocks[last - 1..],
        _ => blocks,
    };
    asked.iter().any(|block| is_damaged(block))
}

/// The planted fault of a roll that has rows before it meets the damaged block.
fn spoil_refused(blocks: &[&[u8]], rows: &mut [u16]) {
    if fault::planted("damage-found-after-rows") {
        let sound = blocks.iter().take_while(|block| !is_damaged(block));
        (1..)
            .zip(sound)
            .for_each(|(row, _)| rows[row - 1] = row as u16);
    }
}

/// The planted faults of the answer. `lent` is what stood in the rows.
fn spoil(lent: &[u16], blocks: usize, rows: &mut [u16], drives: &mut u16) {
    if fault::planted("roll-writes-nothing") {
        rows.copy_from_slice(lent);
    }
    if fault::planted("first-row-only") && blocks > 1 {
        rows[1..].copy_from_slice(&lent[1..]);
    }
    if fault::planted("invented-drive-count") {
        *drives = blocks as u16;
    }
}

/// Whole blocks, at most 64, and a row for each; else 1.
fn sizes_are_right(blocks: &[u8], rows: &[u16]) -> bool {
    blocks.len() % BLOCK == 0 && blocks.len() <= 32_768 && rows.len() >= blocks.len() / BLOCK
}

/// A name decides where there is one; the texts only where neither block has
/// one (RULES 5).
fn same_drive(a: &[u8], b: &[u8]) -> bool {
    if fault::planted("roll-by-sixteen-letters") {
        return a[54..70] == b[54..70];
    }
    let b_has_name = if fault::planted("name-word-asked-of-one-block") {
        has_name_bits(b)
    } else {
        has_name(b)
    };
    match (has_name(a), b_has_name) {
        (true, true) => same_name(a, b),
        (false, false) => same_texts(a, b),
        _ => false,
    }
}

fn same_name(a: &[u8], b: &[u8]) -> bool {
    (108..=111).all(|w| word(a, w) == word(b, w))
}

/// The serial number and the model, spaced.
fn same_texts(a: &[u8], b: &[u8]) -> bool {
    let serial = 20..40;
    let model = 54..94;
    if fault::planted("roll-keeps-zeros-apart") {
        return a[serial.clone()] == b[serial] && a[model.clone()] == b[model];
    }
    serial
        .chain(model)
        .all(|at| space_for_zero(a[at]) == space_for_zero(b[at]))
}

/// All that the program prints for the given input.
pub fn rollcall(input: &[u8]) -> String {
    let mut rows = [0; 64];
    let roll = roll(input, &mut rows);
    if roll.number != refusal::ACCEPTED {
        return format!("refused {}\n", roll.number);
    }
    let mut text = format!("blocks {} drives {}\n", roll.blocks, roll.drives);
    for (at, block) in input.chunks(BLOCK).enumerate() {
        let form = if has_name(block) { "wwn" } else { "text" };
        text.push_str(&format!("{} {} {}\n", at, rows[at], form));
    }
    text
}
