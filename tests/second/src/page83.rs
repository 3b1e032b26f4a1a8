//! Page 83h, the identification page: its writer and its reader (RULES 6.4).

use crate::identify::{
    has_name, is_damaged, spaces_for_zeros, turned_model, turned_name, turned_serial,
};
use crate::pages::VENDOR;
use crate::ports::{self, Ports};
use crate::{fault, refusal};

/// The descriptor's head where the block carries a name.
const NAME_HEAD: [u8; 4] = [0x01, 0x03, 0x00, 0x08];
/// Its head where it carries none.
const TEXT_HEAD: [u8; 4] = [0x02, 0x01, 0x00, 0x44];

/// What writing a page came to.
#[derive(Clone, Copy, Debug, Default, PartialEq, Eq)]
pub struct Written {
    pub number: u8,
    pub count: usize,
}

/// What reading a page came to. Form 0 is a refusal, 1 a world wide name in
/// the first 8 bytes, 2 a text of 40 model and 20 serial bytes. The ports are
/// those that stood there; what did not is zero.
#[derive(Clone, Copy, Debug, PartialEq, Eq)]
pub struct Name {
    pub number: u8,
    pub form: u8,
    pub name: [u8; 60],
    pub ports: Ports,
    pub address: [u8; 8],
}

/// The page of a block: the drive's name, and behind it the ports.
pub fn page83(block: &[u8], ports: Ports, address: &[u8]) -> Vec<u8> {
    let mut told = if has_name(block) {
        name_descriptor(block)
    } else {
        text_descriptor(block)
    };
    let name_alone = told.len();
    let ports = ports::descriptors(ports, address);
    if fault::planted("ports-before-the-name") {
        told = [&ports[..], &told].concat();
    } else {
        told.extend(&ports);
    }
    // The length field counts all that follows it: 12 or 72 bytes, and 8, 12 or
    // 20 more.
    let length = match ports.len() {
        _ if fault::planted("ports-not-counted") => name_alone,
        20 if fault::planted("ports-one-counted") => name_alone + 8,
        _ => told.len(),
    };
    let mut page = vec![0x00, 0x83, 0x00, length as u8];
    page.extend(told);
    page
}

fn name_descriptor(block: &[u8]) -> Vec<u8> {
    let mut descriptor = NAME_HEAD.to_vec();
    descriptor.extend(turned_name(block));
    descriptor
}

fn text_descriptor(block: &[u8]) -> Vec<u8> {
    let mut descriptor = TEXT_HEAD.to_vec();
    descriptor.extend(VENDOR);
    descriptor.extend(spaces_for_zeros(&turned_model(block)));
    descriptor.extend(spaces_for_zeros(&turned_serial(block)));
    descriptor
}

/// Writes the complete page of a block at the room's start.
pub fn write_page83(block: &[u8], ports: Ports, address: &[u8], room: &mut [u8]) -> Written {
    // A page is written of a block, so 0 bytes are refused here too.
    if block.len() != 512 || !the_writer_takes(ports, address) {
        return refuse_writing(refusal::SIZE);
    }
    if fault::planted("write-refuses-all") {
        return refuse_writing(refusal::ROOM);
    }
    let page = page83(block, ports, address);
    let short = room.len() < page.len();
    let wrong_port = !ports::number_is_right(ports) && !fault::planted("ports-any-number-written");
    // A damaged block may name another drive (RULES 6.4).
    let room_first = fault::planted("write-asks-damage-after-room") && short;
    let port_first = fault::planted("ports-number-before-damage") && wrong_port;
    if is_damaged(block) && !room_first && !port_first && !fault::planted("write-takes-damage") {
        return refuse_writing(refusal::DAMAGED);
    }
    if wrong_port && !(short && fault::planted("ports-written-room-first")) {
        return refuse_writing(refusal::PORT);
    }
    if short {
        return refuse_writing(refusal::ROOM);
    }
    if !fault::planted("write-writes-nothing") {
        room[..page.len()].copy_from_slice(&page);
    }
    Written {
        number: refusal::ACCEPTED,
        count: page.len(),
    }
}

/// The rule of the address, but for a planted fault.
fn the_writer_takes(ports: Ports, address: &[u8]) -> bool {
    ports::address_size_is_right(ports, address) || fault::planted("ports-any-address-written")
}

fn refuse_writing(number: u8) -> Written {
    Written { number, count: 0 }
}

/// Reads a page that the writer could have made, and no other.
pub fn read_page83(page: &[u8]) -> Name {
    if fault::planted("read-refuses-all") {
        return nothing_found();
    }
    name_in(page)
        .or_else(|| text_in(page))
        .unwrap_or_else(nothing_found)
}

/// A refusal has form 0, a name of zeros and no ports (RULES 2).
fn nothing_found() -> Name {
    Name {
        number: refusal::NOT_A_PAGE,
        form: 0,
        name: [0; 60],
        ports: Ports::default(),
        address: [0; 8],
    }
}

/// A name of this form, with the ports that stand behind it; None where
/// something else does.
fn found(form: u8, bytes: &[u8], behind: &[u8]) -> Option<Name> {
    let mut name = [0; 60];
    name[..bytes.len()].copy_from_slice(bytes);
    let (ports, address) = if fault::planted("reader-takes-a-tail") {
        ports::ports_in(behind).unwrap_or_default()
    } else {
        ports::ports_in(behind)?
    };
    Some(Name {
        number: refusal::ACCEPTED,
        form,
        name,
        ports,
        address,
    })
}

/// The 8 bytes of a world wide name, which the writer never makes of zeros
/// alone.
fn name_in(page: &[u8]) -> Option<Name> {
    let rest = behind(descriptors_in(page)?, &[&NAME_HEAD])?;
    let (bytes, behind) = (rest.get(..8)?, &rest[8..]);
    let is_a_name = bytes.iter().any(|&byte| byte != 0x00);
    if !is_a_name && !fault::planted("reader-takes-name-zero") {
        return None;
    }
    found(1, bytes, behind)
}

/// The 60 bytes of model and serial number, in which the writer leaves no zero
/// byte.
fn text_in(page: &[u8]) -> Option<Name> {
    let rest = behind(descriptors_in(page)?, &[&TEXT_HEAD, VENDOR])?;
    let (bytes, behind) = (rest.get(..60)?, &rest[60..]);
    let is_a_text = bytes.iter().all(|&byte| byte != 0x00);
    if !is_a_text || fault::planted("ports-reader-not-behind-texts") && !behind.is_empty() {
        return None;
    }
    found(2, bytes, behind)
}

/// What follows the page's head, if its length field counts it.
fn descriptors_in(page: &[u8]) -> Option<&[u8]> {
    let rest = behind(page, &[&[0x00, 0x83, 0x00]])?;
    let (&length, told) = rest.split_first()?;
    let counted = usize::from(length) == told.len()
        || fault::planted("reader-takes-a-tail") && usize::from(length) < told.len()
        || fault::planted("ports-reader-asks-no-length") && ![12, 72].contains(&told.len());
    counted.then_some(told)
}

/// What follows the given pieces, if the page starts with them in their order.
fn behind<'a>(page: &'a [u8], pieces: &[&[u8]]) -> Option<&'a [u8]> {
    let mut rest = page;
    for piece in pieces {
        rest = rest.strip_prefix(*piece)?;
    }
    Some(rest)
}
