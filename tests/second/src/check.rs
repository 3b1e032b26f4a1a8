//! The check of another maker's bridge: a capture of its replies, held against
//! what the board writes for the block that page 89h shows (RULES 15).

use crate::identify::is_damaged;
use crate::packet::is_packet_drive;
use crate::page83::page83;
use crate::ports::{Ports, RELATIVE, SAS};
use crate::{fault, pages, refusal};

/// What a field can be: page 00h, standard data under 01h, and pages 80h, 83h
/// and 89h.
const TAGS: [u8; 5] = [0x00, 0x01, 0x80, 0x83, 0x89];

/// Of a field: its tag, and two length bytes.
const HEAD: usize = 3;

/// What a check came to. A number is a refusal, with a place in the capture
/// where the layout is broken. Else it is accepted, or `tag` is the first field
/// at fault and `place` that of its first differing byte, counted from the one
/// behind its length.
#[derive(Clone, Copy, Debug, Default, PartialEq, Eq)]
pub struct Checked {
    pub number: u8,
    pub accepted: u8,
    pub tag: u8,
    pub place: usize,
}

/// A tag, and the bytes behind its length.
type Field<'a> = (u8, &'a [u8]);

/// The refusals in their order, then the first field at fault.
pub fn check(capture: &[u8]) -> Checked {
    if let Some(spoilt) = spoilt_order(capture) {
        return spoilt;
    }
    match fields_in(capture) {
        Err(place) => refused(refusal::CAPTURE, place),
        Ok(fields) => judged(&fields),
    }
}

fn refused(number: u8, place: usize) -> Checked {
    Checked {
        number,
        place,
        ..Checked::default()
    }
}

/// The fields of a capture, one behind the other to its end; or the place of
/// the first tag whose field breaks the layout, or of the end where 89h is
/// missing.
fn fields_in(capture: &[u8]) -> Result<Vec<Field<'_>>, usize> {
    let mut fields: Vec<Field> = Vec::new();
    let mut at = 0;
    while at < capture.len() {
        if fault::planted("check-takes-bytes-behind") && ends_with_89(&fields) {
            return Ok(fields);
        }
        let field = field_at(&capture[at..]).ok_or_else(|| broken_at(capture, at))?;
        if !may_follow(&fields, field) {
            return Err(broken_at(capture, at));
        }
        at += HEAD + field.1.len();
        if TAGS.contains(&field.0) {
            fields.push(field);
        }
    }
    let whole = ends_with_89(&fields) || fault::planted("check-asks-no-89h") && !fields.is_empty();
    match whole {
        true => Ok(fields),
        false if fault::planted("check-missing-89h-at-0") => Err(0),
        false => Err(capture.len()),
    }
}

/// The place that a broken field has, but for a planted fault.
fn broken_at(capture: &[u8], at: usize) -> usize {
    match at {
        _ if fault::planted("check-broken-at-the-length") => at + 1,
        _ if fault::planted("check-broken-at-the-end") => capture.len(),
        _ if fault::planted("check-broken-at-0") => 0,
        _ => at,
    }
}

/// No tag is above 89h, so a field with it is the last.
fn ends_with_89(fields: &[Field]) -> bool {
    if fault::planted("check-takes-tags-that-fall") {
        return fields.iter().any(|field| field.0 == 0x89);
    }
    fields.last().map_or(false, |field| field.0 == 0x89)
}

/// The field at the front, if it is all there.
fn field_at(rest: &[u8]) -> Option<Field<'_>> {
    let head = rest.get(..HEAD)?;
    let mut size = usize::from(head[1]) * 256 + usize::from(head[2]);
    if fault::planted("check-length-low-byte-first") {
        size = usize::from(head[2]) * 256 + usize::from(head[1]);
    }
    if fault::planted("check-length-of-one-byte") {
        size %= 256;
    }
    if fault::planted("check-takes-a-cut-field") {
        size = size.min(rest.len() - HEAD);
    }
    Some((head[0], rest.get(HEAD..HEAD + size)?))
}

/// A field has one of the tags, one above that of the field before, and 89h
/// the size of its page.
fn may_follow(fields: &[Field], (tag, bytes): Field) -> bool {
    let known = TAGS.contains(&tag) || fault::planted("check-skips-other-tags");
    let rises = match fields.last() {
        None => true,
        Some(_) if fault::planted("check-takes-tags-that-fall") => {
            fields.iter().all(|before| before.0 != tag)
        }
        Some(last) if fault::planted("check-takes-a-tag-twice") => last.0 <= tag,
        Some(last) => last.0 < tag,
    };
    let whole = bytes.len() == 572
        || (bytes.len() == 571 && fault::planted("check-takes-89h-of-571"))
        || (bytes.len() == 573 && fault::planted("check-takes-89h-of-573"))
        || (bytes.len() > 572 && fault::planted("check-takes-89h-of-more"));
    known && rises && (tag != 0x89 || whole)
}

/// What page 89h says of the drive, all of it that the other pages are made
/// from.
struct Drive {
    texts: Vec<u8>,
    signature: Vec<u8>,
    block: Vec<u8>,
}

impl Drive {
    /// Bytes 8-35, 36-55 and 60-571 of its page 89h (RULES 6.5).
    fn shown_in(page: &[u8]) -> Drive {
        // A page of another size comes here where a fault is planted.
        let mut page = page.to_vec();
        page.resize(572, 0x00);
        Drive {
            texts: page[8..36].to_vec(),
            signature: page[36..56].to_vec(),
            block: page[60..572].to_vec(),
        }
    }
}

/// 22 and 18, then the fields as they stand.
fn judged(fields: &[Field]) -> Checked {
    let page = match fields.iter().find(|field| field.0 == 0x89) {
        Some(field) => field.1,
        // Only where a fault is planted.
        None => return accepted(),
    };
    let mut drive = Drive::shown_in(page);
    if fault::planted("check-block-from-byte-56") {
        drive.block = page[56..568].to_vec();
    }
    let mut number = refusal_of(&drive);
    if fault::planted("check-18-before-22") && is_damaged(&drive.block) {
        number = refusal::DAMAGED;
    }
    if number != refusal::ACCEPTED {
        return refused(number, spoilt_place(fields));
    }
    spoil(&mut drive);
    let mut faults = fields
        .iter()
        .map(|&field| (field, place_at_fault(field, &drive)));
    let first = if fault::planted("check-names-the-last-field") {
        faults.rfind(|(_, place)| place.is_some())
    } else {
        faults.find(|(_, place)| place.is_some())
    };
    match first {
        Some((field, Some(place))) => differs(fields, field, place),
        _ => accepted(),
    }
}

/// A packet drive is not judged, and nothing of a damaged block is used.
fn refusal_of(drive: &Drive) -> u8 {
    let packet = is_packet_drive(&drive.signature) && !fault::planted("check-judges-packet-drives");
    let half = drive.signature[5] == 0x14 && fault::planted("check-packet-by-one-byte");
    if packet || half {
        refusal::PACKET
    } else if is_damaged(&drive.block) && !fault::planted("check-judges-damage") {
        refusal::DAMAGED
    } else {
        refusal::ACCEPTED
    }
}

fn accepted() -> Checked {
    Checked {
        accepted: 1,
        tag: if fault::planted("check-accepted-with-a-tag") {
            0x89
        } else {
            0
        },
        ..Checked::default()
    }
}

/// The field is at fault at this place of it.
fn differs(fields: &[Field], field: Field, place: usize) -> Checked {
    let before = fields.iter().take_while(|other| other.0 != field.0);
    let start: usize = before.map(|other| HEAD + other.1.len()).sum();
    Checked {
        accepted: u8::from(fault::planted("check-accepts-all")),
        number: if fault::planted("check-differs-with-a-number") {
            refusal::NOT_A_PAGE
        } else {
            refusal::ACCEPTED
        },
        tag: field.0,
        place: match place {
            _ if fault::planted("check-place-from-the-tag") => place + HEAD,
            _ if fault::planted("check-place-in-the-capture") => start + HEAD + place,
            _ if fault::planted("check-place-from-1") => place + 1,
            _ => place,
        },
    }
}

/// Where a field is none of the pages that the board may write in its place:
/// the furthest that it goes with one of them. None where it is one.
fn place_at_fault((tag, bytes): Field, drive: &Drive) -> Option<usize> {
    let mut pages = pages_of(tag, bytes, drive);
    if fault::planted("check-choice-by-the-size") {
        let sized = pages.iter().position(|page| page.len() == bytes.len());
        pages.swap(0, sized.unwrap_or(0));
        pages.truncate(1);
    }
    if pages.iter().any(|page| is_page(bytes, page)) {
        return None;
    }
    let places = pages.iter().map(|page| agreed(bytes, page));
    if fault::planted("check-nearest-place") {
        return places.min();
    }
    places.max()
}

fn is_page(bytes: &[u8], page: &[u8]) -> bool {
    bytes == page
        || (fault::planted("check-takes-the-start-of-a-page") && page.starts_with(bytes))
        || (fault::planted("check-takes-more-than-a-page") && bytes.starts_with(page))
}

/// How many bytes of two texts are the same from the front: the place of the
/// first that differs, or the shorter length where one is the other's start.
fn agreed(bytes: &[u8], page: &[u8]) -> usize {
    let pairs = bytes.iter().zip(page);
    let place = pairs.take_while(|(byte, wanted)| byte == wanted).count();
    let (shorter, longer) = if bytes.len() < page.len() {
        (bytes.len(), page.len())
    } else {
        (page.len(), bytes.len())
    };
    match place {
        _ if fault::planted("check-place-by-length") && shorter < longer => shorter,
        _ if fault::planted("check-longer-length") && place == shorter => longer,
        _ if fault::planted("check-start-of-the-other-at-0") && place == shorter => 0,
        _ => place,
    }
}

/// What the board may write under this tag. Only of page 83h are there several.
fn pages_of(tag: u8, field: &[u8], drive: &Drive) -> Vec<Vec<u8>> {
    let block = &drive.block;
    match tag {
        0x00 => vec![pages::page00()],
        0x01 if fault::planted("check-01h-as-a-page") => {
            let data = pages::standard_data(block);
            vec![[&[0x00, 0x01, 0x00, 0x20], &data[4..]].concat()]
        }
        0x01 => vec![pages::standard_data(block)],
        0x80 => vec![pages::page80(block)],
        0x83 => choices()
            .into_iter()
            .map(|ports| furthest_page83(field, block, ports))
            .collect(),
        _ if fault::planted("check-89h-not-compared") => vec![field.to_vec()],
        _ => vec![pages::page89(
            block,
            &drive.signature,
            &drive.texts,
            fault::planted("check-page-89h-of-a-packet-drive"),
        )],
    }
}

/// Every choice of ports (RULES 6.4), but for the address.
fn choices() -> Vec<Ports> {
    let mut all = vec![
        Ports::new(0, 0),
        Ports::new(RELATIVE, 1),
        Ports::new(RELATIVE, 2),
        Ports::new(SAS, 0),
        Ports::new(RELATIVE | SAS, 1),
        Ports::new(RELATIVE | SAS, 2),
    ];
    spoil_choices(&mut all);
    all
}

/// Of the pages with these ports the one with which the field goes furthest,
/// over every address. They differ in the eight bytes of the address alone, the
/// last of the page, and an address has any byte in each of them. So a field
/// that differs before them goes as far with one address as with another; and
/// one that does not goes furthest with its own bytes there, which no address
/// can take further: it ends, or it has bytes behind the page.
fn furthest_page83(field: &[u8], block: &[u8], ports: Ports) -> Vec<u8> {
    let end = page83(block, ports, &[0; 8]).len();
    let mut address = [0; 8];
    for (byte, own) in address.iter_mut().zip(&field[field.len().min(end - 8)..]) {
        *byte = *own;
    }
    if fault::planted("check-address-of-zeros") {
        address = [0; 8];
    }
    if fault::planted("check-whole-addresses-alone") && field.len() < end {
        address = [0; 8];
    }
    if fault::planted("check-address-not-0") && address == [0; 8] {
        address[0] = 0x50;
    }
    page83(block, ports, &address)
}

/// The planted faults of the choices.
fn spoil_choices(all: &mut Vec<Ports>) {
    let mut keep = |fault: &str, kept: &dyn Fn(&Ports) -> bool| {
        if fault::planted(fault) {
            all.retain(|ports| kept(ports));
        }
    };
    keep("check-name-alone", &|ports| ports.chosen == 0);
    keep("check-no-choice-of-none", &|ports| ports.chosen != 0);
    keep("check-no-relative", &|ports| ports.chosen != RELATIVE);
    keep("check-no-sas", &|ports| ports.chosen != SAS);
    keep("check-no-both", &|ports| ports.chosen != RELATIVE | SAS);
    keep("check-no-port-1", &|ports| ports.relative != 1);
    keep("check-no-port-2", &|ports| ports.relative != 2);
    for (fault, relative) in [("check-takes-port-0", 0), ("check-takes-port-3", 3)] {
        if fault::planted(fault) {
            all.extend([RELATIVE, RELATIVE | SAS].map(|chosen| Ports::new(chosen, relative)));
        }
    }
}

/// The planted faults of what page 89h says.
fn spoil(drive: &mut Drive) {
    if fault::planted("check-texts-of-its-own") {
        drive.texts = b"PIONGSEUTBRIDGE BOARD  4.00 ".to_vec();
    }
    if fault::planted("check-signature-of-zeros") {
        drive.signature = vec![0; 20];
    }
}

/// The planted fault of a refusal's place.
fn spoilt_place(fields: &[Field]) -> usize {
    if fault::planted("check-refusal-with-the-place-of-89h") {
        let before = fields.iter().take_while(|field| field.0 != 0x89);
        return before.map(|field| HEAD + field.1.len()).sum();
    }
    0
}

/// The planted faults of the order of 21 and the others: a page 89h that can be
/// read is asked, whatever else is broken.
fn spoilt_order(capture: &[u8]) -> Option<Checked> {
    let asked = [
        ("check-22-before-21", refusal::PACKET),
        ("check-18-before-21", refusal::DAMAGED),
    ];
    let place = (0..capture.len()).find(|&at| capture[at..].starts_with(&[0x89, 0x02, 0x3C]))?;
    let (_, page) = field_at(&capture[place..])?;
    let number = refusal_of(&Drive::shown_in(page));
    let planted = |&(name, of): &(&str, u8)| fault::planted(name) && of == number;
    asked.iter().any(planted).then(|| refused(number, 0))
}
