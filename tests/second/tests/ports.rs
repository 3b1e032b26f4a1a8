//! Page 83h with ports: written, shown, refused and read back.

mod common;

use common::*;
use second::{read_page83, write_page83, Name, Ports, Written};

const ADDRESS: [u8; 8] = [0x50, 0x01, 0x02, 0x03, 0x04, 0x05, 0x06, 0x07];
const PORT_1: [u8; 8] = [0x61, 0x94, 0x00, 0x04, 0x00, 0x00, 0x00, 0x01];
const PORT_2: [u8; 8] = [0x61, 0x94, 0x00, 0x04, 0x00, 0x00, 0x00, 0x02];
const SAS: [u8; 12] = [
    0x61, 0x93, 0x00, 0x08, 0x50, 0x01, 0x02, 0x03, 0x04, 0x05, 0x06, 0x07,
];
const NAME: [u8; 12] = [
    0x01, 0x03, 0x00, 0x08, 0x50, 0x00, 0xC5, 0x00, 0x12, 0x34, 0x56, 0x78,
];
const PAGE_83: [u8; 6] = [0x12, 0x01, 0x83, 0x00, 0xFF, 0x00];

/// The descriptor of a drive without texts.
fn texts_of_spaces() -> Vec<u8> {
    let mut descriptor = vec![0x02, 0x01, 0x00, 0x44];
    descriptor.extend(b"ATA     ");
    descriptor.extend([0x20; 60]);
    descriptor
}

/// Each choice with the descriptors that it adds, and how long the page says
/// that it is behind a name and behind texts.
fn choices() -> Vec<(u16, u16, Vec<u8>, [u8; 2])> {
    vec![
        (0, 0, vec![], [0x0C, 0x48]),
        (1, 1, PORT_1.to_vec(), [0x14, 0x50]),
        (1, 2, PORT_2.to_vec(), [0x14, 0x50]),
        (2, 0, SAS.to_vec(), [0x18, 0x54]),
        (3, 1, [&PORT_1[..], &SAS].concat(), [0x20, 0x5C]),
        (3, 2, [&PORT_2[..], &SAS].concat(), [0x20, 0x5C]),
    ]
}

/// A block, what its page says first, and which of the lengths it has.
fn drives() -> Vec<([u8; 512], Vec<u8>, usize)> {
    vec![
        (block_0(), NAME.to_vec(), 0),
        (zero_block(), texts_of_spaces(), 1),
    ]
}

fn page(length: u8, name: &[u8], ports: &[u8]) -> Vec<u8> {
    [&[0x00, 0x83, 0x00, length], name, ports].concat()
}

fn refused() -> Name {
    read_page83(&[])
}

/// Written, shown by INQUIRY whole and cut at every length, and read back.
#[test]
fn every_choice_of_every_drive() {
    for (block, name, at) in drives() {
        for (chosen, relative, told, lengths) in choices() {
            let page = page(lengths[at], &name, &told);
            let mut room = vec![FILL; page.len() + 1];
            let ports = Ports { chosen, relative };
            let written = write_page83(&block, ports, &ADDRESS, &mut room);
            assert_eq!((written.number, written.count), (0, page.len()));
            assert_eq!(room, [&page[..], &[FILL]].concat());
            for allocation in 0..=page.len() + 1 {
                let command = [0x12, 0x01, 0x83, 0x00, allocation as u8, 0x00];
                Ask::new(&command)
                    .block(&block)
                    .ports(chosen, relative, &ADDRESS)
                    .writes(&page[..allocation.min(page.len())]);
            }
            let read = read_page83(&page);
            assert_eq!((read.number, usize::from(read.form)), (0, at + 1));
            assert_eq!(read.ports, ports);
            assert_eq!(read.address, if chosen & 2 != 0 { ADDRESS } else { [0; 8] });
        }
    }
}

/// Bits of a choice that say nothing, and what is not chosen.
#[test]
fn what_is_not_chosen_is_not_looked_at() {
    let wanted = page(0x0C, &NAME, &[]);
    for (chosen, relative, size) in [(0, 7, 3), (0xFFFC, 0, 0), (4, 0xFFFF, 9)] {
        let ask = Ask::new(&PAGE_83).ports(chosen, relative, &vec![1; size]);
        ask.writes(&wanted);
    }
    let wanted = page(0x14, &NAME, &PORT_2);
    let ask = Ask::new(&PAGE_83).ports(0xFFFD, 2, &[]);
    ask.writes(&wanted);
    let wanted = page(0x18, &NAME, &SAS);
    let ask = Ask::new(&PAGE_83).ports(0xFFFE, 0, &ADDRESS);
    ask.writes(&wanted);
}

/// 1 of a chosen address, whatever is asked and of whatever drive.
#[test]
fn row_1_addresses() {
    for size in [0, 1, 7, 9, 16] {
        for chosen in [2, 3] {
            let address = vec![0x50; size];
            for command in [&[][..], &[0x00], &[0x12, 0, 0, 0, 36, 0], &PAGE_83] {
                let ask = Ask::new(command).ports(chosen, 3, &address);
                ask.clone().refused(1);
                ask.clone().block(&[]).refused(1);
                ask.packet(&[5, 0, 0, 0]).refused(1);
            }
            let (mut room, ports) = ([FILL; 96], Ports::new(chosen, 3));
            let written = write_page83(&block_0(), ports, &address, &mut room);
            assert_eq!(written, row(1));
            assert!(is_filled(&room));
        }
    }
}

fn row(number: u8) -> Written {
    Written { number, count: 0 }
}

/// 19 of a chosen number, of page 83h alone; not of packet drives.
#[test]
fn row_19_numbers() {
    for relative in [0, 3, 0x0100, 0x0101, 0x0201, 0xFFFF] {
        for chosen in [1, 3] {
            let ask = Ask::new(&PAGE_83).ports(chosen, relative, &ADDRESS);
            ask.refused(19);
            ask.clone().block(&zero_block()).refused(19);
            ask.packet(&[1, 2, 3]).passes(3);
            for command in [[0x12, 0, 0, 0, 0, 0], [0x12, 1, 0, 0, 0, 0]] {
                let ask = Ask::new(&command).ports(chosen, relative, &ADDRESS);
                ask.writes(&[]);
            }
            for command in [[0x12, 1, 0x80, 0, 0, 0], [0x12, 1, 0x89, 0, 0, 0]] {
                let ask = Ask::new(&command).ports(chosen, relative, &ADDRESS);
                ask.writes(&[]);
            }
            let (mut room, ports) = ([FILL; 96], Ports::new(chosen, relative));
            let written = write_page83(&block_0(), ports, &ADDRESS, &mut room);
            assert_eq!(written, row(19));
            assert!(is_filled(&room));
        }
    }
}

/// 19 is given at allocation length 0, too; behind 1, 18, 4 and 6, before 8.
#[test]
fn the_place_of_19() {
    let ask = |command: &[u8]| Ask::new(command).ports(1, 3, &[]);
    ask(&[0x12, 1, 0x83, 0, 0, 0]).refused(19);
    ask(&PAGE_83).room(0).refused(19);
    ask(&PAGE_83).block(&[]).refused(6);
    ask(&[0x12, 3, 0x83, 0, 0xFF, 0]).refused(4);
    ask(&[0x12, 1, 0x83, 0, 0xFF, 4]).refused(4);
    ask(&[0x12, 0, 0x83, 0, 0xFF, 0]).refused(4);
    ask(&PAGE_83).sense(21).refused(1);
    let mut damaged = zero_block();
    damaged[510] = 0xA5;
    ask(&PAGE_83).block(&damaged).refused(18);
    let (no_port, mut none) = (Ports::new(1, 0), [FILL; 0]);
    assert_eq!(write_page83(&[], no_port, &[], &mut none), row(1));
    assert_eq!(write_page83(&damaged, no_port, &[], &mut none), row(18));
    assert_eq!(write_page83(&block_0(), no_port, &[], &mut none), row(19));
    let port = Ports::new(1, 1);
    assert_eq!(write_page83(&block_0(), port, &[], &mut [0; 23]), row(8));
}

/// Descriptors in the other order, twice, or followed by something; numbers
/// that are no port, and bytes before one.
#[test]
fn other_pages_are_refused() {
    let wrong_numbers = [[0, 0, 0, 0], [0, 0, 0, 3], [0, 0, 1, 0], [0, 1, 0, 1]];
    let mut wrong: Vec<Vec<u8>> = wrong_numbers
        .iter()
        .map(|number| [&PORT_1[..4], number].concat())
        .collect();
    wrong.push([&SAS[..], &PORT_1].concat());
    wrong.push([PORT_1, PORT_1].concat());
    wrong.push([PORT_1, PORT_2].concat());
    wrong.push([SAS, SAS].concat());
    for told in [&PORT_1[..], &SAS, &[&PORT_2[..], &SAS].concat()] {
        wrong.push([told, &[0x00]].concat());
        wrong.push(told[..told.len() - 1].to_vec());
    }
    for (_, name, _) in drives() {
        for told in &wrong {
            let length = (name.len() + told.len()) as u8;
            assert_eq!(read_page83(&page(length, &name, told)), refused());
        }
        assert_eq!(read_page83(&page(name.len() as u8, &name, &SAS)), refused());
        let length = (name.len() + 12) as u8;
        assert_eq!(read_page83(&page(length, &SAS, &name)), refused());
    }
}

/// A changed byte of a page with both ports: one of the name or the address
/// may change, and the number from 1 to 2.
#[test]
fn every_change_of_one_byte() {
    let whole = page(0x20, &NAME, &[&PORT_1[..], &SAS].concat());
    for at in 0..whole.len() {
        for value in 0..=255 {
            let mut changed = whole.clone();
            changed[at] = value;
            let free = (8..16).contains(&at) || at >= 28 || at == 23 && value == 2;
            let wanted = free || changed == whole;
            assert_eq!(read_page83(&changed) != refused(), wanted);
        }
    }
}
