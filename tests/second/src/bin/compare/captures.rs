//! Inputs of the check of another maker's bridge: captures of the board's own
//! replies, whole and damaged, and of pages that others make.

use crate::board::Board;
use crate::call::{Call, CHECK};
use crate::lent::{self, ADDRESS};
use crate::numbers::Numbers;
use second::Ports;

/// A tag, and the bytes of its field.
pub type Field = (u8, Vec<u8>);

const TAGS: [u8; 5] = [0x00, 0x01, 0x80, 0x83, 0x89];

/// No port, the number of each alone, the address alone, and both.
const CHOICES: [Ports; 6] = [
    Ports {
        chosen: 0,
        relative: 0,
    },
    Ports {
        chosen: 1,
        relative: 1,
    },
    Ports {
        chosen: 1,
        relative: 2,
    },
    Ports {
        chosen: 2,
        relative: 0,
    },
    Ports {
        chosen: 3,
        relative: 1,
    },
    Ports {
        chosen: 3,
        relative: 2,
    },
];

/// The fields one behind the other, each with its right length.
pub fn capture(fields: &[Field]) -> Vec<u8> {
    let mut bytes = Vec::new();
    for (tag, field) in fields {
        bytes.push(*tag);
        bytes.extend((field.len() as u16).to_be_bytes());
        bytes.extend(field);
    }
    bytes
}

pub fn check(capture: &[u8]) -> Call {
    Call::new(CHECK, vec![capture.to_vec()])
}

fn ask(board: &mut Board, fields: &[Field]) {
    board.call(&check(&capture(fields)));
}

/// What INQUIRY shows of the five, for a drive and its ports.
pub fn replies(block: &[u8], signature: &[u8], ports: Ports, address: &[u8]) -> Vec<Field> {
    let asked = [(1, 0x00), (0, 0x00), (1, 0x80), (1, 0x83), (1, 0x89)];
    let shown = asked.map(|(evpd, page)| {
        let (mut room, mut sense) = ([0; 572], [0; 22]);
        let command = [0x12, evpd, page, 0xFF, 0xFF, 0x00];
        let call = lent::inquiry(&command)
            .piece(2, signature.to_vec())
            .ports(ports, address);
        let answer = call.inquiry(&command, block, 0, &mut room, &mut sense);
        room[..answer.count].to_vec()
    });
    TAGS.into_iter().zip(shown).collect()
}

/// All five of a drive that is no packet drive.
fn plain(block: &[u8], ports: Ports) -> Vec<Field> {
    replies(block, &lent::plain_signature(), ports, &ADDRESS)
}

/// Drives with a name and without, of which the second has a checksum.
fn drives() -> [Vec<u8>; 3] {
    let closed = lent::closed(lent::holey_block());
    [lent::block_0(), closed, lent::text_block()]
}

/// The fields of which the bits of a number say that they are there.
fn some(fields: &[Field], bits: usize) -> Vec<Field> {
    let there = fields
        .iter()
        .enumerate()
        .filter(|(at, _)| bits >> at & 1 == 1);
    there.map(|(_, field)| field.clone()).collect()
}

/// The board's own replies, every choice of ports, all subsets of the fields.
/// Back: whether each that has 89h, of a block that passes, is accepted.
pub fn own_replies(board: &mut Board, real: &[Vec<u8>]) -> bool {
    let (mut agree, mut accepted) = (true, 0);
    for block in lent::blocks().iter().chain(real) {
        for ports in CHOICES {
            let whole = plain(block, ports);
            for bits in 0..32 {
                let bytes = capture(&some(&whole, bits));
                board.call(&check(&bytes));
                let answer = second::check(&bytes);
                let passes = bits >= 16 && whole[4].1.len() == 572;
                agree &= passes == (answer.accepted == 1);
                accepted += u32::from(answer.accepted);
            }
        }
    }
    agree && accepted > 1_000
}

/// Each byte of a capture changed by a bit, to zero and to ones; those that are
/// not the block's to every value, for one choice of ports.
pub fn bytes(board: &mut Board) {
    for block in drives() {
        for ports in [CHOICES[0], CHOICES[2], CHOICES[4]] {
            let whole = capture(&plain(&block, ports));
            let start = whole.len() - 512;
            for at in 0..whole.len() {
                let old = whole[at];
                let values = match at < start && ports == CHOICES[4] {
                    true => (0..=0xFF).collect(),
                    false => vec![old ^ 1, old ^ 0x80, 0x00, 0xFF],
                };
                for value in values {
                    let mut changed = whole.clone();
                    changed[at] = value;
                    board.call(&check(&changed));
                }
            }
        }
    }
}

/// Captures cut at every length, with bytes behind them, and with nothing.
pub fn cut(board: &mut Board) {
    for block in drives() {
        for bits in [31, 24, 17, 15, 8] {
            let whole = capture(&some(&plain(&block, CHOICES[5]), bits));
            for size in 0..whole.len() {
                board.call(&check(&whole[..size]));
            }
            for tag in 0..=0xFF {
                for behind in [&[tag][..], &[tag, 0], &[tag, 0, 0], &[tag, 0, 1, 7]] {
                    board.call(&check(&[&whole[..], behind].concat()));
                }
            }
            board.call(&check(&[&whole[..], &whole].concat()));
        }
    }
}

/// Every field cut at every length and made longer, with the length that it
/// then has; and with every length that is near, which is then wrong.
pub fn lengths(board: &mut Board) {
    for block in drives() {
        let whole = plain(&block, CHOICES[4]);
        for at in 0..5 {
            let size = whole[at].1.len();
            for length in (0..=size + 4).chain([size + 256, 1024, 65_535]) {
                for fill in [0x00, 0x20] {
                    let mut fields = whole.clone();
                    fields[at].1.resize(length, fill);
                    ask(board, &fields);
                }
            }
            let before = capture(&whole[..at]).len();
            for length in (0..size + 700).chain([size << 8, 65_535 - size, 65_535]) {
                let mut wrong = capture(&whole);
                wrong[before + 1..before + 3].copy_from_slice(&(length as u16).to_be_bytes());
                board.call(&check(&wrong));
            }
        }
    }
}

/// Up to four fields in every order, also twice, with another tag among them;
/// and every tag in the place of each.
pub fn tags(board: &mut Board) {
    let mut fields = plain(&lent::block_0(), CHOICES[1]);
    for tag in 0..=0xFF {
        for at in 0..5 {
            let mut changed = fields.clone();
            changed[at].0 = tag;
            ask(board, &changed);
            changed.remove((at + 2) % 5);
            ask(board, &changed);
        }
    }
    fields.push((0x88, vec![0x88, 0x00, 0x00]));
    for count in 0..=4 {
        for way in 0..6_usize.pow(count) {
            let places = (0..count).map(|at| way / 6_usize.pow(at) % 6);
            let chosen: Vec<Field> = places.map(|place| fields[place].clone()).collect();
            ask(board, &chosen);
        }
    }
}

/// What makes a capture refused: its layout, its signature, its block.
const LAYOUTS: [&str; 8] = [
    "whole", "tag", "falls", "twice", "behind", "cut", "571", "573",
];

/// Breaks the layout of a capture in one of these ways.
fn broken(way: &str, mut fields: Vec<Field>) -> Vec<u8> {
    match way {
        "tag" => fields[0].0 = 0x02,
        "falls" => fields.swap(0, 1),
        "twice" => fields.insert(1, fields[0].clone()),
        "571" => fields[4].1.truncate(571),
        "573" => fields[4].1.push(0x00),
        _ => {}
    }
    let mut bytes = capture(&fields);
    match way {
        "behind" => bytes.push(0x00),
        "cut" => bytes.truncate(bytes.len() - 1),
        _ => {}
    }
    bytes
}

/// Every refusal alone, and every two and three together, before and behind a
/// field that differs, too; signatures that are a packet drive's in one byte.
pub fn refusals(board: &mut Board) {
    let signatures = [
        [0x00, 0x00],
        [0x14, 0xEB],
        [0x14, 0xEA],
        [0x15, 0xEB],
        [0xEB, 0x14],
        [0x14, 0x00],
        [0x00, 0xEB],
    ];
    let mut half_damaged = lent::closed(lent::block_0());
    half_damaged[3] ^= 0x10;
    let blocks = [lent::block_0(), lent::damaged_block(), half_damaged];
    for block in blocks.iter().chain(&[lent::closed(lent::text_block())]) {
        for two in signatures {
            // The replies are those of a block that passes, so that there are some.
            let mut fields = plain(&lent::block_0(), CHOICES[3]);
            let page = &mut fields[4].1;
            page[41..43].copy_from_slice(&two);
            page[60..].copy_from_slice(block);
            for way in LAYOUTS {
                board.call(&check(&broken(way, fields.clone())));
                for (at, place) in [(0, 7), (1, 2), (2, 0), (3, 3), (3, 20), (4, 1), (4, 56)] {
                    let mut differing = fields.clone();
                    differing[at].1[place] ^= 0x40;
                    board.call(&check(&broken(way, differing)));
                }
            }
        }
    }
}

/// Two fields that differ, each at many places: the first is named.
pub fn two_fields(board: &mut Board) {
    for block in drives() {
        let whole = plain(&block, CHOICES[4]);
        for first in 0..5 {
            for second in 0..5 {
                for (a, b) in [(0, 0), (1, 3), (3, 1), (7, 7), (5, 2)] {
                    let mut fields = whole.clone();
                    fields[first].1[a] ^= 0x21;
                    fields[second].1[b] ^= 0x42;
                    ask(board, &fields);
                    fields[second].1.truncate(b.max(a));
                    ask(board, &fields);
                }
            }
        }
    }
}

/// A capture of page 83h alone beside page 89h.
fn with_page83(block: &[u8], page: Vec<u8>) -> Vec<u8> {
    let mut fields = plain(block, CHOICES[0]);
    fields[3].1 = page;
    capture(&fields[3..])
}

/// A page cut at every length, made longer, with each byte changed, and with
/// the end of each of these pages from every byte on.
fn spoilt(page: &[u8], others: &[Vec<u8>]) -> Vec<Vec<u8>> {
    let mut all = Vec::new();
    for size in 0..=page.len() + 3 {
        all.push(page.to_vec());
        all[size].resize(size, 0x61);
    }
    for at in 0..page.len() {
        for by in [1, 2, 3, 7, 0x80] {
            let mut changed = page.to_vec();
            changed[at] ^= by;
            all.push(changed);
        }
    }
    for other in others {
        let end = page.len();
        all.extend((4..=other.len()).map(|at| [&page[..at.min(end)], &other[at..]].concat()));
    }
    all
}

/// Page 83h of every choice of ports with the length byte of every choice, and
/// with others: whole and spoilt.
pub fn ports(board: &mut Board) {
    for block in drives() {
        let pages = CHOICES.map(|ports| lent::page83_with(&block, ports, &ADDRESS));
        let mut lengths = vec![0, 1, 8, 44, 68, 104, 255];
        lengths.extend(pages.iter().map(|page| page[3]));
        for page in &pages {
            for &length in &lengths {
                let mut told = page.clone();
                told[3] = length;
                for page in spoilt(&told, &pages) {
                    board.call(&check(&with_page83(&block, page)));
                }
            }
        }
    }
}

/// Right and wrong descriptors, up to three behind the name in every order,
/// under a length that counts them and under that of each choice.
pub fn descriptors(board: &mut Board) {
    let number = |bytes: [u8; 4]| [&[0x61, 0x94, 0x00, 0x04][..], &bytes].concat();
    let address = |bytes: [u8; 8]| [&[0x61, 0x93, 0x00, 0x08][..], &bytes].concat();
    let mut all = vec![number([0, 0, 0, 1]), number([0, 0, 0, 2])];
    all.extend([number([0, 0, 0, 0]), number([0, 0, 0, 3])]);
    all.extend([number([0, 0, 1, 1]), number([1, 0, 0, 1])]);
    all.extend([address(ADDRESS), address([0; 8]), address([0xFF; 8])]);
    all.extend([
        vec![0x61, 0x93, 0x00, 0x08, 0x50],
        vec![0x61, 0x94, 0x00, 0x04],
    ]);
    let kinds = all.len();
    for block in drives() {
        let name = lent::page83(&block)[4..].to_vec();
        for count in 0..=3 {
            for way in 0..kinds.pow(count) {
                let chosen = (0..count).map(|at| &all[way / kinds.pow(at) % kinds][..]);
                let told = [&name[..], &chosen.collect::<Vec<_>>().concat()].concat();
                for length in [told.len(), name.len() + 8, name.len() + 12, name.len() + 20] {
                    let page = [&[0x00, 0x83, 0x00, length as u8][..], &told].concat();
                    board.call(&check(&with_page83(&block, page)));
                }
            }
        }
    }
}

/// What others put into page 83h: a name, texts, vendor-specific bytes before
/// or behind them, several of these, an "ata." string, and nothing.
fn foreign_names(block: &[u8]) -> Vec<Vec<u8>> {
    let own = lent::page83(block)[4..].to_vec();
    let mut name = vec![0x01, 0x03, 0x00, 0x08];
    name.extend(second::identify::turned_name(block));
    let mut texts = vec![0x02, 0x01, 0x00, 0x44];
    texts.extend(b"ATA     ");
    texts.extend(second::identify::turned_model(block));
    texts.extend(second::identify::turned_serial(block));
    let specific = [&[0x02, 0x00, 0x00, 0x14][..], &[0x41; 20]].concat();
    let ata = [&[0x02, 0x01, 0x00, 0x08][..], b"ata.1234"].concat();
    vec![
        [&specific[..], &texts].concat(),
        [&specific[..], &texts, &name].concat(),
        [&name[..], &texts].concat(),
        [&own[..], &specific].concat(),
        name,
        texts,
        ata,
        Vec::new(),
    ]
}

/// The fields of one drive with those of another among them; and page 83h with
/// the names that others make, of several types.
pub fn foreign(board: &mut Board, real: &[Vec<u8>]) {
    let mut blocks = lent::blocks();
    blocks.extend(real.iter().cloned());
    blocks.retain(|block| second::check(&capture(&plain(block, CHOICES[0])[4..])).number == 0);
    for (at, block) in blocks.iter().enumerate() {
        let other = &blocks[(at + 1) % blocks.len()];
        let (mut fields, others) = (plain(block, CHOICES[0]), plain(other, CHOICES[3]));
        for bits in 0..16 {
            let pairs = fields.iter().zip(&others).enumerate();
            let either =
                pairs.map(|(at, (one, other))| if bits >> at & 1 == 1 { other } else { one });
            let mixed: Vec<Field> = either.cloned().collect();
            ask(board, &mixed);
        }
        for told in foreign_names(block) {
            for kind in [0x00, 0x05, 0x20] {
                fields[3].1 = [&[kind, 0x83, 0x00, told.len() as u8][..], &told].concat();
                ask(board, &fields);
                ask(board, &some(&fields, 0b11000));
            }
        }
    }
}

/// A capture of a random drive, mostly with every field right, or nearly.
pub fn random(numbers: &mut Numbers, block: &[u8]) -> Call {
    let ports = numbers.pick(&CHOICES);
    let signature = match numbers.below(8) {
        0 => lent::packet_signature(),
        _ => numbers.bytes(20),
    };
    let page89 = second::pages::page89(block, &signature, &numbers.bytes(28), false);
    let mut fields = replies(block, &lent::plain_signature(), ports, &numbers.bytes(8));
    fields[4].1 = page89;
    let mut fields = some(&fields, numbers.below(64) | 16);
    if numbers.once_in(3) {
        let at = numbers.below(fields.len());
        let field = &mut fields[at].1;
        let (place, value) = (numbers.below(field.len().max(1)), numbers.byte());
        match (numbers.below(4), field.get_mut(place)) {
            (0, _) => field.truncate(place),
            (1, _) => field.extend(numbers.bytes(3)),
            (_, Some(byte)) => *byte = value,
            _ => {}
        }
    }
    if numbers.once_in(8) {
        let at = numbers.below(fields.len());
        fields[at].0 = numbers.pick(&[0x00, 0x01, 0x80, 0x83, 0x89, 0x02, 0xFF]);
    }
    check(&capture(&fields))
}
