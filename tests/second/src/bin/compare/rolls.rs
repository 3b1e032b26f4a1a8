//! Inputs of the roll. They are large, so there are fewer of them.

use crate::board::Board;
use crate::lent;
use crate::numbers::Numbers;
use crate::ports;
use second::Ports;

/// 64 different drives: by name, by model, by serial, or by one byte alone.
pub fn different() -> Vec<Vec<u8>> {
    (0..64_u8)
        .map(|at| {
            let mut block = lent::text_block();
            match at % 4 {
                0 => {
                    block = lent::with_word(block, 87, lent::NAMED);
                    block[216 + usize::from(at / 8)] = at + 1;
                }
                1 => block[20 + usize::from(at / 4)] = 0xF0,
                2 => block[54 + usize::from(at / 2)] = 0xF1,
                _ => block[93] = 0x80 + at,
            }
            block
        })
        .collect()
}

/// Changes that leave a drive the same: other words, and zeros for spaces. A
/// drive without a name has none or factory text in its place.
pub fn twin(block: &[u8], numbers: &mut Numbers) -> Vec<u8> {
    let mut twin = block.to_vec();
    let named = lent::carries_name(block);
    for at in (0..512).filter(|at| !(216..224).contains(at)) {
        let text = (20..40).contains(&at) || (54..94).contains(&at);
        if named || !text {
            twin[at] = numbers.byte();
        } else if twin[at] == 0x20 || twin[at] == 0x00 {
            twin[at] = numbers.pick(&[0x00, 0x20]);
        }
    }
    if named {
        twin[175] = twin[175] & 0x3E | 0x41;
    } else if numbers.once_in(2) {
        twin[175] &= 0xFE;
        twin[216..224].copy_from_slice(&numbers.bytes(8));
    } else {
        twin[216..224].fill(0);
    }
    if twin[510] == 0xA5 {
        return lent::closed(twin);
    }
    twin
}

/// 0, 1, 2, 63, 64, 65 and more blocks, odd sizes, rows of n - 1, n, n + 1.
pub fn sizes(board: &mut Board) {
    let all = different().concat();
    for count in [0, 1, 2, 3, 63, 64, 65, 66, 128] {
        let mut blocks = all.clone();
        blocks.resize(512 * count, 0x41);
        for more in [-512, -511, -2, -1, 0, 1, 2, 511, 513_isize] {
            let size = lent::near(blocks.len(), more);
            let mut other = blocks.clone();
            other.resize(size, 0x42);
            for rows in [0, 1, count.saturating_sub(1), count, count + 1, 70] {
                board.call(&lent::roll(&other, rows));
            }
        }
    }
}

/// Twins planted at every place of a full roll, and of short ones.
pub fn twins(board: &mut Board, seed: u64) {
    let mut numbers = Numbers::new(seed);
    let drives = different();
    for at in 0..64 {
        let mut planted = drives.clone();
        let first = numbers.below(64);
        planted[at] = twin(&drives[first], &mut numbers);
        let third = numbers.below(64);
        planted[third] = twin(&drives[at], &mut numbers);
        board.call(&lent::roll(&planted.concat(), 64));
    }
    for kinds in [1, 2, 3, 8, 20] {
        for count in [2, 5, 17, 64] {
            let rolled: Vec<Vec<u8>> = (0..count)
                .map(|_| twin(&drives[numbers.below(kinds)], &mut numbers))
                .collect();
            board.call(&lent::roll(&rolled.concat(), count + 2));
        }
    }
}

/// Two blocks that differ in one byte, for every byte, of every kind.
pub fn one_byte(board: &mut Board) {
    let mut blank = lent::zero_block();
    blank[20..94].fill(0x20);
    let bases = [lent::text_block(), lent::block_0(), lent::holey_block()];
    let others = [lent::junk_block(), lent::zero_block(), blank];
    for base in bases.iter().chain(&others) {
        for at in 0..512 {
            for value in [0x00, 0x20, 0x41, base[at] ^ 1] {
                let mut other = base.clone();
                other[at] = value;
                board.call(&lent::roll(&[&base[..], &other].concat(), 2));
            }
        }
    }
}

/// A damaged block at each place of rolls, one that is closed right in its
/// stead, and two damaged ones; rows of n - 1, n and n + 1.
pub fn damaged(board: &mut Board) {
    let drives = different();
    for count in [1, 2, 3, 17, 64] {
        for at in 0..count {
            let sound = drives[..count].concat();
            let with = |at: usize, block: &[u8]| {
                let mut blocks = sound.clone();
                blocks[512 * at..512 * (at + 1)].copy_from_slice(block);
                blocks
            };
            let mut two = with(at, &lent::damaged_block());
            two[..512].copy_from_slice(&lent::damaged_block());
            for rows in [count - 1, count, count + 1] {
                board.call(&lent::roll(&with(at, &lent::damaged_block()), rows));
                board.call(&lent::roll(
                    &with(at, &lent::closed(lent::holey_block())),
                    rows,
                ));
                board.call(&lent::roll(&two, rows));
            }
        }
    }
}

/// Two blocks that say in word 87, each in its own way, that they have a name
/// or none: with equal names and other texts, equal texts and other names, all
/// the same, and no name but zeros.
pub fn name_words(board: &mut Board) {
    let mut other_texts = lent::block_0();
    other_texts[20] = 0x41;
    let mut other_name = lent::block_0();
    other_name[216] ^= 1;
    for first in WORDS_87 {
        for second in WORDS_87 {
            for other in [
                &other_texts,
                &other_name,
                &lent::block_0(),
                &lent::zero_block(),
            ] {
                let pair = [
                    lent::with_word(lent::block_0(), 87, first),
                    lent::with_word(other.clone(), 87, second),
                ];
                board.call(&lent::roll(&pair.concat(), 2));
            }
        }
    }
}

/// All that bits 15:14 and bit 8 can say, the other bits as zeros or ones; and
/// 4100h with its bytes exchanged.
const WORDS_87: [u16; 17] = [
    0x0000, 0x0100, 0x4000, 0x4100, 0x8000, 0x8100, 0xC000, 0xC100, 0x3EFF, 0x3FFF, 0x7EFF, 0x7FFF,
    0xBEFF, 0xBFFF, 0xFEFF, 0xFFFF, 0x0041,
];

/// The sample of RULES 11.
pub fn sample() -> Vec<u8> {
    let (first, mut second) = (lent::block_0(), lent::block_0());
    second[20] = 0x41;
    [first, second, lent::zero_block()].concat()
}

/// A drive's block and the ports that it is reached by.
struct Reached {
    block: Vec<u8>,
    ports: Ports,
    address: [u8; 8],
}

impl Reached {
    /// A twin of one of these drives, by any of few ports.
    fn any(drives: &[Vec<u8>], numbers: &mut Numbers) -> Reached {
        Reached {
            block: twin(&drives[numbers.below(16)], numbers),
            ports: Ports::new(numbers.below(8) as u16, 1 + numbers.below(2) as u16),
            address: [numbers.below(2) as u8; 8],
        }
    }

    fn page(&self) -> Vec<u8> {
        lent::page83_with(&self.block, self.ports, &self.address)
    }

    /// Of the page: the first descriptor.
    fn name(&self) -> Vec<u8> {
        let page = self.page();
        page[4..8 + usize::from(page[7])].to_vec()
    }

    fn told(&self) -> (Option<u16>, Option<[u8; 8]>) {
        ports::told(self.ports, self.address)
    }
}

/// Names, rows and pages of a roll: two blocks have the same row exactly if
/// the first descriptors of their pages 83h are equal, and the pages are equal
/// exactly if the ports are, too. Back: whether that held.
pub fn pages_agree(board: &mut Board, seed: u64) -> bool {
    let mut numbers = Numbers::new(seed);
    let drives = different();
    let mut agree = true;
    for _ in 0..40 {
        let picked: Vec<Reached> = (0..24)
            .map(|_| Reached::any(&drives, &mut numbers))
            .collect();
        let blocks: Vec<u8> = picked.iter().flat_map(|one| one.block.clone()).collect();
        board.call(&lent::roll(&blocks, 24));
        let mut rows = [0; 24];
        second::roll(&blocks, &mut rows);
        for (at, one) in picked.iter().enumerate() {
            board.call(&lent::write(&one.block, 96).ports(one.ports, &one.address));
            board.call(&lent::read(&one.page()));
            for (other, row) in picked.iter().zip(rows) {
                let (same, equal) = (row == rows[at], other.told() == one.told());
                agree &= (other.name() == one.name()) == same;
                agree &= (other.page() == one.page()) == (same && equal);
            }
        }
    }
    agree
}
