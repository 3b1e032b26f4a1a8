//! The fields of an IDENTIFY block of 512 bytes (RULES 5), read here on their own
//! and not as `tools/identify.py` does: readings that share nothing judge each other.

use crate::fault;

/// A word has its low byte first.
pub fn word(block: &[u8], w: usize) -> u16 {
    let low = u16::from(block[2 * w]);
    let high = u16::from(block[2 * w + 1]);
    (high << 8) | low
}

/// Words `first` to `last`, each high byte first: so a text's letters come to
/// stand as they are read.
pub fn turned(block: &[u8], first: usize, last: usize) -> Vec<u8> {
    let mut bytes = Vec::new();
    for w in first..=last {
        let [high, low] = word(block, w).to_be_bytes();
        bytes.push(high);
        bytes.push(low);
    }
    bytes
}

/// The serial number, 20 letters.
pub fn turned_serial(block: &[u8]) -> Vec<u8> {
    turned(block, 10, 19)
}

/// The model, 40 letters.
pub fn turned_model(block: &[u8]) -> Vec<u8> {
    turned(block, 27, 46)
}

/// The world wide name, 8 bytes.
pub fn turned_name(block: &[u8]) -> Vec<u8> {
    turned(block, 108, 111)
}

/// A name counts where the drive says that it has one; and one of zeros is
/// none (RULES 5).
pub fn has_name(block: &[u8]) -> bool {
    if fault::planted("name-of-zeros") {
        return says_it_has_a_name(block);
    }
    says_it_has_a_name(block) && has_name_bits(block)
}

/// Whether a bit of words 108-111 is one, which alone may be anything.
pub fn has_name_bits(block: &[u8]) -> bool {
    (108..=111).any(|w| word(block, w) != 0)
}

/// Word 87: bits 15:14 as 01b tell that the word counts, and bit 8 of it that
/// there is a name.
fn says_it_has_a_name(block: &[u8]) -> bool {
    let said = word(block, 87);
    spoilt_says(block, said >> 14 == 0b01 && said & 0x0100 != 0)
}

/// The planted faults of word 87.
fn spoilt_says(block: &[u8], says: bool) -> bool {
    let tells = |said: u16| said & 0xC100 == 0x4100;
    let said = word(block, 87);
    if fault::planted("name-word-not-asked") {
        return true;
    }
    if fault::planted("name-without-bit-8") {
        return said >> 14 == 0b01;
    }
    if fault::planted("name-word-84") {
        return tells(word(block, 84));
    }
    if fault::planted("name-word-86") {
        return tells(word(block, 86));
    }
    if fault::planted("name-word-exchanged") {
        return tells(said.swap_bytes());
    }
    let taken_too = (fault::planted("name-word-valid-by-00b") && said & 0xC100 == 0x0100)
        || (fault::planted("name-word-valid-by-10b") && said & 0xC100 == 0x8100)
        || (fault::planted("name-word-valid-by-11b") && said & 0xC100 == 0xC100);
    says || taken_too
}

/// The bytes of a logical sector: twice the number in words 117 and 118, where
/// word 106 counts and says so (RULES 5), which takes 33 bits; else 512.
pub fn sector_size(block: &[u8]) -> u64 {
    if !says_its_sector_size(word(block, 106)) {
        return 512;
    }
    let (mut low, mut high) = (word(block, 117), word(block, 118));
    if fault::planted("sector-words-exchanged") {
        std::mem::swap(&mut low, &mut high);
    }
    if fault::planted("sector-size-of-word-117-alone") {
        high = 0;
    }
    let in_words = u64::from(high) << 16 | u64::from(low);
    spoilt_size(in_words, 2 * in_words)
}

/// Word 106: bits 15:14 as 01b tell that the word counts, and bit 12 of it that
/// a sector has more than 256 words.
fn says_its_sector_size(said: u16) -> bool {
    let counts = match said >> 14 {
        0b00 => fault::planted("sector-word-valid-by-00b"),
        0b01 => true,
        0b10 => fault::planted("sector-word-valid-by-10b"),
        _ => fault::planted("sector-word-valid-by-11b"),
    };
    let asks = !fault::planted("sector-without-bits-15-14");
    let bit = match () {
        _ if fault::planted("sector-without-bit-12") => 0,
        _ if fault::planted("sector-by-bit-13") => 13,
        _ => 12,
    };
    (counts || !asks) && (bit == 0 || said >> bit & 1 == 1)
}

/// The planted faults of the number itself.
fn spoilt_size(in_words: u64, size: u64) -> u64 {
    match () {
        _ if fault::planted("sector-size-not-doubled") => in_words,
        _ if fault::planted("sector-size-of-32-bits") => size & 0xFFFF_FFFF,
        _ if fault::planted("sector-size-0-is-512") && size == 0 => 512,
        _ if fault::planted("sector-size-at-least-512") && size < 512 => 512,
        _ => size,
    }
}

/// Whether a cable changed the block: a drive that puts A5h into its byte 510
/// makes its 512 bytes sum to 0 (RULES 5). Of a block without A5h that cannot
/// be told, and an absent one has nothing to be told of.
pub fn is_damaged(block: &[u8]) -> bool {
    if block.is_empty() && fault::planted("damage-of-an-absent-block") {
        return true;
    }
    block.len() == 512 && has_checksum(block) && !sum_is_right(block)
}

fn has_checksum(block: &[u8]) -> bool {
    let [high, low] = word(block, 255).to_be_bytes();
    if fault::planted("damage-marked-in-byte-511") {
        return high == 0xA5;
    }
    low == 0xA5 || fault::planted("damage-without-the-mark")
}

fn sum_is_right(block: &[u8]) -> bool {
    let summed = if fault::planted("damage-summed-over-511") {
        &block[..511]
    } else {
        block
    };
    let sum = summed.iter().map(|&byte| u32::from(byte)).sum::<u32>() % 256;
    sum == 0
        || (sum == 1 && fault::planted("damage-sum-1-taken"))
        || (sum == 255 && fault::planted("damage-sum-255-taken"))
}

/// What a text that is spaced has for this byte.
pub fn space_for_zero(byte: u8) -> u8 {
    if byte == 0x00 {
        0x20
    } else {
        byte
    }
}

/// A text with its zero bytes as spaces.
pub fn spaces_for_zeros(text: &[u8]) -> Vec<u8> {
    text.iter().map(|&byte| space_for_zero(byte)).collect()
}
