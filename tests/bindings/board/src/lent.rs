//! Lent pieces between guards, and the bytes that calls come in.

const GUARD: usize = 64;

/// Bytes that are read from the front.
pub struct Bytes<'a>(pub &'a [u8]);

impl<'a> Bytes<'a> {
    pub fn take(&mut self, size: usize) -> &'a [u8] {
        let (front, rest) = self.0.split_at(size);
        self.0 = rest;
        front
    }

    pub fn number(&mut self, size: usize) -> u64 {
        let bytes = self.take(size).iter().rev();
        bytes.fold(0, |number, &byte| number << 8 | u64::from(byte))
    }

    pub fn byte(&mut self) -> u8 {
        self.number(1) as u8
    }

    pub fn sixteen_bits(&mut self) -> u16 {
        self.number(2) as u16
    }
}

fn guard(at: usize) -> u8 {
    0xC3 ^ (at as u8).wrapping_mul(37)
}

/// The bytes that stand before and behind each piece and the record.
pub fn guards() -> [u8; GUARD] {
    let mut guards = [0; GUARD];
    guards
        .iter_mut()
        .enumerate()
        .for_each(|(at, byte)| *byte = guard(at));
    guards
}

/// A lent piece of bytes. It begins at any place, so that it meets every
/// alignment.
#[derive(Default)]
pub struct Piece {
    all: Vec<u8>,
    start: usize,
    size: usize,
}

impl Piece {
    pub fn fill(&mut self, bytes: &[u8], shift: usize) {
        (self.start, self.size) = (GUARD + shift, bytes.len());
        self.all.clear();
        self.all.resize(shift, 0);
        self.all.extend(guards());
        self.all.extend(bytes);
        self.all.extend(guards());
    }

    pub fn read(&self) -> &[u8] {
        &self.all[self.start..self.start + self.size]
    }

    pub fn write(&mut self) -> &mut [u8] {
        &mut self.all[self.start..self.start + self.size]
    }

    pub fn is_guarded(&self) -> bool {
        let before = &self.all[self.start - GUARD..self.start];
        before == guards() && self.all[self.start + self.size..] == guards()
    }
}

/// A lent piece of 16-bit numbers.
#[derive(Default)]
pub struct Numbers {
    all: Vec<u16>,
}

impl Numbers {
    pub fn fill(&mut self, piece: &[u8]) {
        let guards = guards().map(u16::from);
        self.all.clear();
        self.all.extend(guards);
        let pairs = piece.chunks_exact(2);
        self.all
            .extend(pairs.map(|two| u16::from_le_bytes([two[0], two[1]])));
        self.all.extend(guards);
    }

    pub fn read(&self) -> &[u16] {
        &self.all[GUARD..self.all.len() - GUARD]
    }

    pub fn write(&mut self) -> &mut [u16] {
        let end = self.all.len() - GUARD;
        &mut self.all[GUARD..end]
    }

    pub fn is_guarded(&self) -> bool {
        let guards = guards().map(u16::from);
        self.all[..GUARD] == guards && self.all[self.all.len() - GUARD..] == guards
    }
}
