//! The writer and the reader of page 83h.

mod common;

use common::*;
use second::{read_page83, Name};

const REFUSED: Name = Name {
    number: 16,
    form: 0,
    name: [0; 60],
    ports: NO_PORTS,
    address: [0; 8],
};

fn page_of(block: &[u8]) -> Vec<u8> {
    let mut room = [FILL; 90];
    let written = write_without_ports(block, &mut room);
    assert_eq!(written.number, 0);
    assert!(
        is_filled(&room[written.count..]),
        "room past the page is touched"
    );
    room[..written.count].to_vec()
}

fn name_page() -> Vec<u8> {
    page_of(&block_0())
}

fn text_page() -> Vec<u8> {
    page_of(&text_block())
}

/// The block whose page these 60 bytes would stand in.
fn block_of_text(text: &[u8]) -> [u8; 512] {
    let mut block = zero_block();
    for at in (0..40).step_by(2) {
        block[54 + at] = text[at + 1];
        block[54 + at + 1] = text[at];
    }
    for at in (0..20).step_by(2) {
        block[20 + at] = text[40 + at + 1];
        block[20 + at + 1] = text[40 + at];
    }
    block
}

#[test]
fn reads_a_name() {
    let mut name = [0; 60];
    name[..8].copy_from_slice(&[0x50, 0x00, 0xC5, 0x00, 0x12, 0x34, 0x56, 0x78]);
    assert_eq!(
        read_page83(&name_page()),
        Name {
            number: 0,
            form: 1,
            name,
            ports: NO_PORTS,
            address: [0; 8]
        }
    );
}

#[test]
fn reads_a_text() {
    let text: [u8; 60] = std::array::from_fn(|at| 0x30 + at as u8);
    let page = page_of(&block_of_text(&text));
    assert_eq!(
        read_page83(&page),
        Name {
            number: 0,
            form: 2,
            name: text,
            ports: NO_PORTS,
            address: [0; 8]
        }
    );
}

/// A text comes back spaced (demand 2).
#[test]
fn reads_zero_bytes_of_a_text_as_spaces() {
    let page = page_of(&zero_block());
    assert_eq!(
        read_page83(&page),
        Name {
            number: 0,
            form: 2,
            name: [0x20; 60],
            ports: NO_PORTS,
            address: [0; 8]
        }
    );
}

/// A byte too many is no page, nor one too few.
#[test]
fn every_other_length_is_refused() {
    for page in [name_page(), text_page()] {
        let longer = [&page[..], &[0x20; 80]].concat();
        for size in 0..longer.len() {
            let read = read_page83(&longer[..size]);
            assert_eq!(read == REFUSED, size != page.len());
        }
    }
}

/// Every change of one byte: a constant must stay, a name byte may change to
/// whatever leaves a nonzero name, a text byte to whatever is not zero.
#[test]
fn every_change_of_one_byte() {
    for (page, constants) in [(name_page(), 8), (text_page(), 16)] {
        for at in 0..page.len() {
            for value in 0..=255 {
                let mut changed = page.clone();
                changed[at] = value;
                let same = changed == page;
                let is_text = constants == 16;
                let wanted = same || (at >= constants && !(is_text && value == 0));
                assert_eq!(read_page83(&changed) != REFUSED, wanted);
            }
        }
    }
}

#[test]
fn a_zero_name_is_refused() {
    let mut page = name_page();
    page[8..].fill(0);
    assert_eq!(read_page83(&page), REFUSED);
    for at in 8..16 {
        page[at] = 1;
        assert_eq!(read_page83(&page).form, 1);
        page[at] = 0;
    }
}

#[test]
fn mixed_heads_are_refused() {
    let mut name = name_page();
    name[4..8].copy_from_slice(&[0x02, 0x01, 0x00, 0x44]);
    assert_eq!(read_page83(&name), REFUSED);
    let mut text = text_page();
    text[3] = 0x0C;
    assert_eq!(read_page83(&text), REFUSED);
}

/// A page that is read is the writer's page of a block with that name.
#[test]
fn what_is_read_can_be_written() {
    let mut numbers = Numbers(1);
    for _ in 0..2000 {
        let mut page = if numbers.below(2) == 0 {
            name_page()
        } else {
            text_page()
        };
        for _ in 0..numbers.below(4) {
            let at = numbers.below(page.len());
            page[at] = [0x00, 0x20, numbers.byte()][numbers.below(3)];
        }
        let read = read_page83(&page);
        let block = match read.form {
            0 => continue,
            1 => {
                let mut block = block_0();
                for at in (0..8).step_by(2) {
                    block[216 + at] = read.name[at + 1];
                    block[216 + at + 1] = read.name[at];
                }
                block
            }
            _ => block_of_text(&read.name),
        };
        assert_eq!(page_of(&block), page);
    }
}
