//! The census of a fleet's drives (RULES 14): how many blocks were fed, and how
//! many of them are in each class of three groupings.

use crate::identify::{has_name, is_damaged, word};
use crate::{fault, refusal};

/// The class of drives without an Ultra DMA mode.
pub const NO_UDMA: usize = 7;
/// The class of drives without a major version.
pub const NO_VERSION: usize = 14;

/// Each grouping has every block in one class: with a name or without; by the
/// highest Ultra DMA mode, 0 to 6 or none; by the highest major version, 1 to
/// 14 or none.
#[derive(Clone, Copy, Debug, Default, PartialEq, Eq)]
pub struct Census {
    pub blocks: u16,
    pub named: u16,
    pub unnamed: u16,
    pub udma: [u16; 8],
    pub version: [u16; 15],
}

/// What feeding a block came to.
#[derive(Clone, Copy, Debug, PartialEq, Eq)]
pub struct Fed {
    pub next: Census,
    pub number: u8,
}

/// A census of no blocks.
pub fn census_empty() -> Census {
    Census::default()
}

/// Counts one more block. A refusal hands the census back as it was.
pub fn census_feed(census: Census, block: &[u8]) -> Fed {
    if let Some(number) = refusal_of(&census, block) {
        let counted_all_the_same = fault::planted("census-counts-refused") && block.len() == 512;
        return Fed {
            next: if counted_all_the_same {
                counted(census, block)
            } else {
                census
            },
            number,
        };
    }
    Fed {
        next: counted(census, block),
        number: refusal::ACCEPTED,
    }
}

/// 1, also for a drive that gave no block; 17; 18.
fn refusal_of(census: &Census, block: &[u8]) -> Option<u8> {
    let size_is_right = block.len() == 512;
    let absent_is_taken = fault::planted("census-takes-no-block") && block.is_empty();
    let damaged = is_damaged(block) && !fault::planted("census-takes-damage");
    let wrong = !can_count_on(census);
    if fault::planted("census-asks-17-first") && wrong {
        return Some(refusal::CENSUS);
    }
    if !size_is_right && !absent_is_taken || fault::planted("census-refuses-all") {
        return Some(refusal::SIZE);
    }
    if fault::planted("census-asks-18-before-17") && damaged {
        return Some(refusal::DAMAGED);
    }
    if wrong {
        return Some(refusal::CENSUS);
    }
    damaged.then_some(refusal::DAMAGED)
}

/// Whether there is a number for one more block, and the census could have
/// come about: each grouping sums to the blocks.
fn can_count_on(census: &Census) -> bool {
    let full = census.blocks == u16::MAX && !fault::planted("census-wraps");
    let names = [census.named, census.unnamed];
    !full
        && sums_to("census-names-not-summed", &names, census.blocks)
        && sums_to("census-udma-not-summed", &census.udma, census.blocks)
        && sums_to("census-version-not-summed", &census.version, census.blocks)
}

/// Whether the classes sum to so many blocks; not asked where that fault is
/// planted.
fn sums_to(unasked: &str, classes: &[u16], blocks: u16) -> bool {
    let sum: u32 = classes.iter().map(|&count| u32::from(count)).sum();
    let equal = if fault::planted("census-sums-wrap") {
        sum as u16 == blocks
    } else {
        sum == u32::from(blocks)
    };
    equal || fault::planted(unasked)
}

/// The census with this block in one class of each grouping.
fn counted(mut census: Census, block: &[u8]) -> Census {
    if block.is_empty() || fault::planted("census-counts-nothing") {
        return census;
    }
    let names = if has_name(block) {
        &mut census.named
    } else {
        &mut census.unnamed
    };
    let udma = &mut census.udma[highest_udma(block)];
    let version = &mut census.version[highest_version(block)];
    for count in [&mut census.blocks, names, udma, version] {
        *count = count.wrapping_add(1);
    }
    census
}

/// Word 88 counts only where word 53 says so in bit 2; its bits 6:0 are the
/// modes that the drive has, bits 14:8 those of which one is chosen.
fn highest_udma(block: &[u8]) -> usize {
    let says = word(block, 53);
    let gate = if fault::planted("census-asks-word-53-bit-1") {
        0x0002
    } else {
        0x0004
    };
    if says & gate == 0 && !fault::planted("census-asks-no-word-53") {
        return NO_UDMA;
    }
    let modes = word(block, 88);
    if fault::planted("census-takes-the-chosen-mode") {
        return highest(modes >> 8, 0..=6).unwrap_or(NO_UDMA);
    }
    if fault::planted("census-lowest-udma") {
        return (0..=6).find(|&mode| is_one(modes, mode)).unwrap_or(NO_UDMA);
    }
    // Mode 7 would be the place of those that have none.
    let last = if fault::planted("census-udma-bit-7") {
        7
    } else {
        6
    };
    highest(modes, 0..=last).unwrap_or(NO_UDMA)
}

/// Word 80: bit v tells of version v. All zeros and all ones tell nothing.
fn highest_version(block: &[u8]) -> usize {
    let versions = word(block, 80);
    if versions == 0xFFFF && !fault::planted("census-version-of-ones") {
        return NO_VERSION;
    }
    if fault::planted("census-lowest-version") {
        let lowest = (1..=14).find(|&version| is_one(versions, version));
        return lowest.map_or(NO_VERSION, |version| version - 1);
    }
    let bits = if fault::planted("census-version-bit-0") {
        0..=14
    } else if fault::planted("census-version-bit-15") {
        1..=15
    } else {
        1..=14
    };
    highest(versions, bits).map_or(NO_VERSION, |version| version.saturating_sub(1))
}

fn is_one(word: u16, bit: usize) -> bool {
    word >> bit & 1 == 1
}

/// The highest of these bits that is one.
fn highest(word: u16, bits: std::ops::RangeInclusive<usize>) -> Option<usize> {
    bits.rev().find(|&bit| is_one(word, bit))
}
