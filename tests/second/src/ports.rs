//! The ports by which a host reaches a drive: what page 83h says of them
//! behind the name, at the caller's choice (RULES 6.4).

use crate::{fault, lent};

/// In `chosen`: the relative target port.
pub const RELATIVE: u16 = 0x0001;
/// In `chosen`: the SAS target port.
pub const SAS: u16 = 0x0002;

/// The heads of both descriptors. 61h says that binary bytes of SAS follow;
/// 94h and 93h that they tell of the port, by its number and by its name.
const RELATIVE_HEAD: [u8; 4] = [0x61, 0x94, 0x00, 0x04];
const SAS_HEAD: [u8; 4] = [0x61, 0x93, 0x00, 0x08];

/// What a caller chooses: whether the page tells a port's number and address,
/// and the number. Other bits of `chosen` say nothing, and so does a number
/// that is not chosen.
#[derive(Clone, Copy, Debug, Default, PartialEq, Eq)]
pub struct Ports {
    pub chosen: u16,
    pub relative: u16,
}

impl Ports {
    pub fn new(chosen: u16, relative: u16) -> Ports {
        Ports { chosen, relative }
    }

    pub fn tells_relative(&self) -> bool {
        self.tells(if fault::planted("ports-bits-exchanged") {
            SAS
        } else {
            RELATIVE
        })
    }

    pub fn tells_sas(&self) -> bool {
        self.tells(if fault::planted("ports-bits-exchanged") {
            RELATIVE
        } else {
            SAS
        })
    }

    fn tells(&self, port: u16) -> bool {
        if fault::planted("ports-other-bits-looked-at") && self.chosen > (RELATIVE | SAS) {
            return false;
        }
        if fault::planted("ports-any-choice-is-both") {
            return self.chosen & (RELATIVE | SAS) != 0;
        }
        self.chosen & port != 0
    }
}

/// 1: a chosen address has eight bytes; of another nothing is asked.
pub fn address_size_is_right(ports: Ports, address: &[u8]) -> bool {
    if fault::planted("ports-address-asked-unchosen") {
        return lent::address_size_is_right(address);
    }
    !ports.tells_sas() || lent::address_size_is_right(address)
}

/// 19: a chosen port is the first or the second; of another nothing is asked.
pub fn number_is_right(ports: Ports) -> bool {
    if fault::planted("ports-number-asked-unchosen") {
        return is_a_port(ports.relative);
    }
    !ports.tells_relative() || is_a_port(ports.relative)
}

/// The two ports of a drive, 1 and 2.
fn is_a_port(relative: u16) -> bool {
    (relative == 0 && fault::planted("ports-0-taken"))
        || (relative == 3 && fault::planted("ports-3-taken"))
        || (relative % 256 == 2 && fault::planted("ports-high-byte-not-looked-at"))
        || (relative == 1 && !fault::planted("ports-1-refused"))
        || (relative == 2 && !fault::planted("ports-2-refused"))
}

/// The chosen descriptors, the number before the address.
pub fn descriptors(ports: Ports, address: &[u8]) -> Vec<u8> {
    let mut both = [Vec::new(), Vec::new()];
    if ports.tells_relative() {
        both[0] = relative_descriptor(ports.relative);
    }
    if ports.tells_sas() {
        both[1] = sas_descriptor(address);
    }
    if fault::planted("ports-exchanged") {
        both.swap(0, 1);
    }
    both.concat()
}

/// Two zero bytes and the number, high byte first.
fn relative_descriptor(relative: u16) -> Vec<u8> {
    let mut descriptor = RELATIVE_HEAD.to_vec();
    let one_page = fault::planted("ports-one-page-for-both-paths");
    let told = if one_page { 1 } else { relative };
    let [high, low] = told.to_be_bytes();
    if fault::planted("ports-low-byte-first") {
        descriptor.extend([0x00, 0x00, low, high]);
    } else if fault::planted("ports-number-before-the-zeros") {
        descriptor.extend([high, low, 0x00, 0x00]);
    } else {
        descriptor.extend([0x00, 0x00, high, low]);
    }
    if fault::planted("ports-of-no-protocol") {
        descriptor[..2].copy_from_slice(&[0x01, 0x14]);
    }
    if fault::planted("ports-of-the-drive") {
        descriptor[1] &= 0xCF;
    }
    descriptor
}

/// The address as it is lent.
fn sas_descriptor(address: &[u8]) -> Vec<u8> {
    let mut descriptor = SAS_HEAD.to_vec();
    descriptor.extend(address);
    // An address of another size comes here where a fault is planted.
    if fault::planted("ports-address-filled-up") {
        descriptor.resize(12, 0x00);
    }
    if fault::planted("ports-address-turned") {
        for pair in descriptor[4..].chunks_exact_mut(2) {
            pair.swap(0, 1);
        }
    }
    if fault::planted("ports-address-low-byte-first") {
        descriptor[4..].reverse();
    }
    descriptor
}

/// What stands behind the name's descriptor, if it is what `descriptors` makes
/// of some ports: those, and the address, zeros where it tells none.
pub fn ports_in(bytes: &[u8]) -> Option<(Ports, [u8; 8])> {
    let (mut ports, mut address) = (Ports::default(), [0; 8]);
    let mut rest = bytes;
    if fault::planted("ports-reader-takes-sas-first") && sas_in(rest).is_some() {
        let (found, behind) = sas_in(rest)?;
        (ports.chosen, address, rest) = (SAS, found, behind);
    }
    if let Some((relative, behind)) = relative_in(rest) {
        ports = Ports::new(ports.chosen | RELATIVE, relative);
        rest = behind;
    }
    if fault::planted("ports-reader-takes-two-numbers") {
        rest = relative_in(rest).map_or(rest, |(_, behind)| behind);
    }
    if let Some((found, behind)) = sas_in(rest) {
        (address, rest) = (found, behind);
        ports.chosen |= SAS;
    }
    if fault::planted("ports-reader-takes-two-addresses") {
        rest = sas_in(rest).map_or(rest, |(_, behind)| behind);
    }
    let tail_taken = fault::planted("ports-reader-takes-a-tail") && ports.chosen != 0;
    (rest.is_empty() || tail_taken).then(|| spoilt(ports, address))
}

/// The planted faults of what is given back.
fn spoilt(ports: Ports, address: [u8; 8]) -> (Ports, [u8; 8]) {
    if fault::planted("ports-reader-forgets-them") {
        return (Ports::default(), [0; 8]);
    }
    if fault::planted("ports-reader-tells-no-choice") {
        return (Ports::new(0, ports.relative), address);
    }
    if fault::planted("ports-reader-forgets-the-number") {
        return (Ports::new(ports.chosen, 0), address);
    }
    if fault::planted("ports-reader-forgets-the-address") {
        return (ports, [0; 8]);
    }
    (ports, address)
}

/// The number of a descriptor at the front, and what is behind it.
fn relative_in(bytes: &[u8]) -> Option<(u16, &[u8])> {
    let rest = bytes.strip_prefix(&RELATIVE_HEAD)?;
    let (told, behind) = (rest.get(..4)?, &rest[4..]);
    let relative = u16::from_be_bytes([told[2], told[3]]);
    if fault::planted("ports-reader-takes-any-number") {
        return Some((relative, behind));
    }
    let zeros = told[..2] == [0x00, 0x00] || fault::planted("ports-reader-asks-no-zeros");
    (zeros && is_a_port_read(relative)).then_some((relative, behind))
}

/// A port of a page: one that the writer takes.
fn is_a_port_read(relative: u16) -> bool {
    (relative == 0 && fault::planted("ports-reader-takes-0"))
        || (relative == 3 && fault::planted("ports-reader-takes-3"))
        || relative == 1
        || relative == 2
}

/// The address of a descriptor at the front, and what is behind it. Any eight
/// bytes are one.
fn sas_in(bytes: &[u8]) -> Option<([u8; 8], &[u8])> {
    let rest = bytes.strip_prefix(&SAS_HEAD)?;
    let address: [u8; 8] = rest.get(..8)?.try_into().ok()?;
    let none = address == [0; 8] && fault::planted("ports-reader-refuses-an-address-of-zeros");
    (!none).then_some((address, &rest[8..]))
}
