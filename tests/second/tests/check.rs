//! The check of another maker's bridge (RULES 15): captures of the board's own
//! replies, and what each change of them comes to.

mod common;

use common::{block_0, packet_signature, text_block, texts, Ask, Numbers, PLAIN};
use second::{check, Checked, Ports};

const ADDRESS: [u8; 8] = [0x50, 0x01, 0x02, 0x03, 0x04, 0x05, 0x06, 0x07];
const TAGS: [u8; 5] = [0x00, 0x01, 0x80, 0x83, 0x89];

/// No port, the number of each alone, the address alone, and both.
const CHOICES: [(u16, u16); 6] = [(0, 0), (1, 1), (1, 2), (2, 0), (3, 1), (3, 2)];

type Field = (u8, Vec<u8>);

fn capture(fields: &[Field]) -> Vec<u8> {
    let field = |(tag, bytes): &Field| {
        let [high, low] = (bytes.len() as u16).to_be_bytes();
        [&[*tag, high, low], &bytes[..]].concat()
    };
    fields.iter().flat_map(field).collect()
}

/// What the board replies, all five.
fn replies(block: &[u8], (chosen, relative): (u16, u16)) -> Vec<Field> {
    let asked = [(1, 0x00), (0, 0x00), (1, 0x80), (1, 0x83), (1, 0x89)];
    let shown = asked.map(|(evpd, page)| {
        let command = [0x12, evpd, page, 0xFF, 0xFF, 0x00];
        let ask = Ask::new(&command).block(block);
        let (answer, room, _) = ask.ports(chosen, relative, &ADDRESS).run();
        room[..answer.count].to_vec()
    });
    TAGS.into_iter().zip(shown).collect()
}

fn accepted() -> Checked {
    Checked {
        accepted: 1,
        ..Checked::default()
    }
}

fn differs(tag: u8, place: usize) -> Checked {
    Checked {
        tag,
        place,
        ..Checked::default()
    }
}

fn refused(number: u8, place: usize) -> Checked {
    Checked {
        number,
        place,
        ..Checked::default()
    }
}

/// The board's own replies are accepted, all of them or some with 89h.
#[test]
fn own_replies() {
    for block in [block_0(), text_block()] {
        for choice in CHOICES {
            let fields = replies(&block, choice);
            for left_out in 0..=4 {
                let mut some = fields.clone();
                some.drain(..left_out);
                assert_eq!(check(&capture(&some)), accepted());
            }
            let without = capture(&fields[..4]);
            assert_eq!(check(&without), refused(21, without.len()));
        }
    }
    assert_eq!(check(&[]), refused(21, 0));
}

/// A changed byte of 00h, of standard data and of 80h is named where it stands.
#[test]
fn one_byte() {
    for block in [block_0(), text_block()] {
        let fields = replies(&block, (3, 2));
        for at in 0..3 {
            for place in 0..fields[at].1.len() {
                let mut changed = fields.clone();
                changed[at].1[place] ^= 0x10;
                changed[3].1[0] ^= 0x10;
                assert_eq!(check(&capture(&changed)), differs(TAGS[at], place));
            }
        }
    }
}

/// Of 89h the bytes before the texts and around the command code are asked;
/// texts and signature are taken as they are, but for a packet drive's.
#[test]
fn page_89h() {
    let fields = replies(&block_0(), (0, 0));
    for place in 0..60 {
        let mut changed = fields.clone();
        changed[4].1[place] ^= 0x10;
        let wanted = match place {
            8..=55 => accepted(),
            _ => differs(0x89, place),
        };
        assert_eq!(check(&capture(&changed)), wanted);
    }
    let mut packet = fields.clone();
    packet[4].1[36..56].copy_from_slice(&packet_signature());
    assert_eq!(check(&capture(&packet)), refused(22, 0));
    packet[4].1[60 + 510] = 0xA5;
    assert_eq!(check(&capture(&packet)), refused(22, 0));
    packet[4].1[36..56].copy_from_slice(&PLAIN);
    assert_eq!(check(&capture(&packet)), refused(18, 0));
    packet.swap(0, 1);
    assert_eq!(check(&capture(&packet)), refused(21, 39));
    assert_eq!(fields[4].1[8..36], texts());
}

/// Every way to break the layout, with the place of the field's tag.
#[test]
fn layouts() {
    let fields = replies(&block_0(), (0, 0));
    let whole = capture(&fields);
    let starts = [0, 11, 50, 77, 96];
    for (at, start) in starts.into_iter().enumerate() {
        let mut tag = fields.clone();
        tag[at].0 = 0x88;
        assert_eq!(check(&capture(&tag)), refused(21, start));
        let mut twice = fields.clone();
        twice.insert(at, fields[at].clone());
        let second = start + 3 + fields[at].1.len();
        assert_eq!(check(&capture(&twice)), refused(21, second));
        for size in start + 1..start + 3 + fields[at].1.len() {
            assert_eq!(check(&whole[..size]), refused(21, start));
        }
        assert_eq!(check(&whole[..start]), refused(21, start));
    }
    assert_eq!(check(&[&whole[..], &[0x89]].concat()), refused(21, 671));
    for size in [0, 1, 571, 573, 1144] {
        let mut resized = fields.clone();
        resized[4].1.resize(size, 0x00);
        assert_eq!(check(&capture(&resized)), refused(21, 96));
    }
}

/// Where a field is the start of the page, or the page that of the field, the
/// shorter length.
#[test]
fn sizes() {
    let fields = replies(&text_block(), (0, 0));
    for at in 0..3 {
        let size = fields[at].1.len();
        for length in (0..size).chain([size + 1, size + 300]) {
            let mut resized = fields.clone();
            resized[at].1.resize(length, 0x00);
            let wanted = differs(TAGS[at], size.min(length));
            assert_eq!(check(&capture(&resized)), wanted);
        }
    }
}

/// The place of page 83h of which this is the start, by hand: 83h of a drive
/// with a name.
#[test]
fn furthest_place() {
    let place = |page: &[u8]| {
        let mut fields = replies(&block_0(), (0, 0));
        fields[3].1 = page.to_vec();
        check(&capture(&fields[3..])).place
    };
    let page = |choice| replies(&block_0(), choice)[3].1.clone();
    let (none, relative, both) = (page((0, 0)), page((1, 1)), page((3, 1)));
    assert_eq!(place(&[]), 0);
    // A length of none of them: up to byte 3.
    assert_eq!(place(&[&[0x00, 0x83, 0x00, 0x0D], &none[4..]].concat()), 3);
    // The length of the name alone, and bytes behind it.
    assert_eq!(place(&[&none[..], &relative[16..]].concat()), 16);
    // That of both ports, and the first alone.
    assert_eq!(place(&[&both[..4], &relative[4..]].concat()), 24);
    // Ports 1 and 2 are there, and 3 is not.
    let mut third = both.clone();
    third[23] = 3;
    assert_eq!(place(&third), 23);
    // An address that is cut off, and a byte behind one.
    assert_eq!(place(&both[..33]), 33);
    assert_eq!(place(&[&both[..], &[0x00]].concat()), 36);
    // The address before the number.
    assert_eq!(
        place(&[&both[..16], &both[24..], &both[16..24]].concat()),
        17
    );
}

/// No address goes further than the place that is told: tried with addresses
/// that agree with the field in some bytes and not in others.
#[test]
fn no_address_goes_further() {
    let mut numbers = Numbers(83);
    for _ in 0..3_000 {
        let block = if numbers.below(2) == 0 {
            block_0()
        } else {
            text_block()
        };
        let mut fields = replies(&block, CHOICES[numbers.below(6)]);
        let page = &mut fields[3].1;
        let place = numbers.below(page.len());
        page[place] = numbers.byte();
        page.truncate(page.len() - numbers.below(12));
        let page = page.clone();
        let told = check(&capture(&fields[3..]));
        let mut furthest = 0;
        for (chosen, relative) in CHOICES {
            for _ in 0..8 {
                let mut address = ADDRESS;
                address[numbers.below(8)] = numbers.byte();
                let ports = Ports::new(chosen, relative);
                let other = second::page83::page83(&block, ports, &address);
                let pairs = page.iter().zip(&other);
                furthest = furthest.max(pairs.take_while(|(a, b)| a == b).count());
            }
        }
        let reached = if told.accepted == 1 {
            page.len()
        } else {
            told.place
        };
        assert!(furthest <= reached);
    }
}
