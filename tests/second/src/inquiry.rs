//! INQUIRY (RULES 4), for packet drives too (RULES 7).

use crate::identify::is_damaged;
use crate::packet::is_packet_drive;
use crate::ports::{self, Ports};
use crate::sense::{stated, write_refusal};
use crate::{fault, lent, packet, page83, pages, refusal};

/// `shown` where the drive's own reply is shown.
pub const SHOWS_REPLY: u8 = 0;
/// `shown` where the room is.
pub const SHOWS_ROOM: u8 = 1;

/// The answer to INQUIRY: the first `count` bytes of what `shown` names.
#[derive(Clone, Copy, Debug, PartialEq, Eq)]
pub struct Inquiry {
    pub number: u8,
    pub status: u8,
    pub shown: u8,
    pub count: usize,
}

/// The fields of the command that count (RULES 4).
struct Asked {
    evpd: bool,
    cmddt: bool,
    page_code: u8,
    allocation: usize,
    naca: bool,
}

/// What is to be shown, decided before a byte is written.
enum Answer {
    /// So many bytes of the drive's own reply.
    Reply(usize),
    /// These bytes, which go into the output room.
    Page(Vec<u8>),
}

/// What is told of a drive: what the caller lends to read but the command.
struct Drive<'a> {
    block: &'a [u8],
    signature: &'a [u8],
    texts: &'a [u8],
    reply: &'a [u8],
    ports: Ports,
    address: &'a [u8],
}

/// Answers INQUIRY.
pub fn inquiry(
    command: &[u8],
    block: &[u8],
    signature: &[u8],
    texts: &[u8],
    reply: &[u8],
    ports: Ports,
    address: &[u8],
    form: u8,
    room: &mut [u8],
    sense: &mut [u8],
) -> Inquiry {
    let drive = Drive {
        block: the_drive_answered_for(block),
        signature,
        texts,
        reply,
        ports,
        address,
    };
    let answer = check_lent(command, &drive, form, sense).and_then(|()| answer(command, &drive));
    match or_room_first(answer, command, room) {
        Err(number) => refuse(number, form, sense),
        Ok(Answer::Reply(count)) => accept(SHOWS_REPLY, count),
        Ok(Answer::Page(bytes)) => write(&bytes, room, form, sense),
    }
}

/// 1 and 18: what is lent is of no use, whatever is asked (RULES 4).
fn check_lent(command: &[u8], drive: &Drive, form: u8, sense: &[u8]) -> Result<(), u8> {
    let damaged_first = is_damaged(drive.block) && fault::planted("damage-before-sizes");
    let damaged_before_address =
        is_damaged(drive.block) && fault::planted("ports-address-asked-after-damage");
    let sizes = sizes_are_right(drive) && lent::sense_size_is_right(form, sense);
    let address = address_is_right(command, drive) || damaged_before_address;
    if !(sizes && address) && !damaged_first {
        return Err(refusal::SIZE);
    }
    if block_is_refused(command, drive) {
        return Err(refusal::DAMAGED);
    }
    Ok(())
}

/// The answer itself, but for a planted fault: short room is told before a port.
fn or_room_first(answer: Result<Answer, u8>, command: &[u8], room: &[u8]) -> Result<Answer, u8> {
    match answer {
        Err(refusal::PORT) if fault::planted("ports-shown-room-first") => {
            let allocation = read_command(command)?.allocation;
            let short = room.len() < allocation.min(24);
            Err(if short { refusal::ROOM } else { refusal::PORT })
        }
        _ => answer,
    }
}

/// What the command asks for.
fn answer(command: &[u8], drive: &Drive) -> Result<Answer, u8> {
    if fault::planted("inquiry-refuses-all") {
        return Err(refusal::FIELD);
    }
    let asked = read_command(command)?;
    if is_packet_drive(drive.signature) {
        packet_answer(&asked, drive)
    } else {
        plain_answer(&asked, drive)
    }
}

/// The block itself, but for a planted fault.
fn the_drive_answered_for(block: &[u8]) -> &[u8] {
    if fault::planted("one-reply-for-all-drives") && block.len() == 512 {
        return &pages::NO_BLOCK;
    }
    block
}

/// 18: a damaged block answers for nothing, whatever is asked and of whatever
/// drive (RULES 4). And the planted faults of that.
fn block_is_refused(command: &[u8], drive: &Drive) -> bool {
    if fault::planted("inquiry-takes-damage") {
        return false;
    }
    let unasked = (fault::planted("damage-after-the-empty-command") && command.is_empty())
        || (fault::planted("damage-not-of-packet-drives") && is_packet_drive(drive.signature));
    is_damaged(drive.block) && !unasked
}

/// A chosen address is asked whatever the command wants, and of whatever drive.
/// And the planted faults of that.
fn address_is_right(command: &[u8], drive: &Drive) -> bool {
    let packet = || drive.signature.len() == 20 && is_packet_drive(drive.signature);
    let unasked = (fault::planted("ports-address-not-of-packet-drives") && packet())
        || (fault::planted("ports-address-of-page-83h-alone") && command.get(2) != Some(&0x83))
        || (fault::planted("ports-address-filled-up") && drive.address.len() < 8);
    unasked || ports::address_size_is_right(drive.ports, drive.address)
}

/// The reply and the output room may have any size (RULES 1).
fn sizes_are_right(drive: &Drive) -> bool {
    lent::block_size_is_right(drive.block)
        && lent::signature_size_is_right(drive.signature)
        && lent::texts_size_is_right(drive.texts)
}

/// An opcode of another command is told before a missing byte, so a command
/// of one byte may give 3 (RULES 3). What stands behind byte 5 is not read.
fn read_command(command: &[u8]) -> Result<Asked, u8> {
    if command.is_empty() {
        return Err(refusal::SHORT);
    }
    if command[0] != 0x12 {
        return Err(refusal::OPCODE);
    }
    if command.len() < 6 {
        return Err(refusal::SHORT);
    }
    Ok(Asked {
        evpd: command[1] & 0x01 != 0,
        cmddt: command[1] & 0x02 != 0,
        page_code: command[2],
        allocation: usize::from(u16::from_be_bytes([command[3], command[4]])),
        naca: command[5] & 0x04 != 0,
    })
}

/// The answer for a drive that is not a packet drive.
fn plain_answer(asked: &Asked, drive: &Drive) -> Result<Answer, u8> {
    check_port_sooner(asked, drive)?;
    check_fields(asked)?;
    check_page(asked)?;
    check_block(asked, drive.block)?;
    check_port(asked, drive.ports)?;
    let page = match (asked.evpd, asked.page_code) {
        (false, _) => pages::standard_data(drive.block),
        (true, 0x00) => pages::page00(),
        (true, 0x80) => pages::page80(drive.block),
        (true, 0x83) => page83::page83(drive.block, drive.ports, drive.address),
        (true, _) => pages::page89(drive.block, drive.signature, drive.texts, false),
    };
    Ok(cut(with_whole_ports(page, asked, drive), asked))
}

/// The page itself, but for a planted fault: ports that the host takes no whole
/// page of are left out.
fn with_whole_ports(page: Vec<u8>, asked: &Asked, drive: &Drive) -> Vec<u8> {
    let is_cut = asked.page_code == 0x83 && page.len() > asked.allocation;
    if is_cut && fault::planted("ports-cut-off-whole") {
        return page83::page83(drive.block, Ports::default(), &[]);
    }
    page
}

/// 4: the fields ask for what the board never does (RULES 4).
fn check_fields(asked: &Asked) -> Result<(), u8> {
    if asked.naca || asked.cmddt || (!asked.evpd && asked.page_code != 0x00) {
        return Err(refusal::FIELD);
    }
    Ok(())
}

/// 5: a page that is not served (RULES 4).
fn check_page(asked: &Asked) -> Result<(), u8> {
    if asked.evpd && ![0x00, 0x80, 0x83, 0x89].contains(&asked.page_code) {
        return Err(refusal::PAGE);
    }
    Ok(())
}

/// 6: what is asked for is read from a block, and there is none (RULES 4).
fn check_block(asked: &Asked, block: &[u8]) -> Result<(), u8> {
    let needs_block = !asked.evpd || asked.page_code == 0x80 || asked.page_code == 0x83;
    if block.is_empty() && needs_block {
        return Err(refusal::NO_BLOCK);
    }
    Ok(())
}

/// 19: page 83h is to tell a port that there is not (RULES 4).
fn check_port(asked: &Asked, ports: Ports) -> Result<(), u8> {
    let page83 = asked.evpd && asked.page_code == 0x83;
    let everywhere = fault::planted("ports-number-asked-of-every-page");
    let nowhere = fault::planted("ports-any-number-shown");
    if (page83 || everywhere) && !nowhere && !ports::number_is_right(ports) {
        return Err(refusal::PORT);
    }
    Ok(())
}

/// The planted faults of its place.
fn check_port_sooner(asked: &Asked, drive: &Drive) -> Result<(), u8> {
    let before_block = drive.block.is_empty() && check_fields(asked).is_ok();
    if fault::planted("ports-number-before-4")
        || fault::planted("ports-number-before-6") && before_block
    {
        return check_port(asked, drive.ports);
    }
    Ok(())
}

/// The answer for a packet drive (RULES 7): it speaks for itself, but for the
/// two pages that the board makes; so its asks are not judged by 4 to 6.
fn packet_answer(asked: &Asked, drive: &Drive) -> Result<Answer, u8> {
    if fault::planted("ports-number-asked-of-packet-drives") {
        check_port(asked, drive.ports)?;
    }
    match (asked.evpd, asked.cmddt, asked.page_code) {
        (true, false, 0x00) => match packet::page00(drive.reply) {
            None => Err(refusal::UNUSABLE),
            Some(page) => Ok(cut(page, asked)),
        },
        (true, false, 0x89) => {
            let page = pages::page89(drive.block, drive.signature, drive.texts, true);
            Ok(cut(page, asked))
        }
        _ => Ok(Answer::Reply(drive.reply.len().min(asked.allocation))),
    }
}

/// The front of a page, as much as the host takes; what the page says of its
/// own length stays (RULES 4).
fn cut(mut page: Vec<u8>, asked: &Asked) -> Answer {
    page.truncate(asked.allocation);
    if fault::planted("length-field-shrinks-with-the-cut") && asked.evpd && page.len() > 3 {
        let rest = (page.len() - 4) as u16;
        page[2..4].copy_from_slice(&rest.to_be_bytes());
    }
    Answer::Page(page)
}

/// 8 where these bytes do not fit; else they are written, and the room behind
/// them stays (RULES 4).
fn write(bytes: &[u8], room: &mut [u8], form: u8, sense: &mut [u8]) -> Inquiry {
    let whole_page_wanted = fault::planted("room-for-the-whole-page") && room.len() < 572;
    if room.len() < bytes.len() || whole_page_wanted {
        return refuse(refusal::ROOM, form, sense);
    }
    if fault::planted("inquiry-writes-nothing") {
        return accept(SHOWS_ROOM, bytes.len());
    }
    room[..bytes.len()].copy_from_slice(bytes);
    accept(SHOWS_ROOM, bytes.len())
}

fn accept(shown: u8, count: usize) -> Inquiry {
    Inquiry {
        number: refusal::ACCEPTED,
        status: refusal::GOOD,
        shown,
        count,
    }
}

/// A refusal shows none of the room's bytes (RULES 2).
fn refuse(number: u8, form: u8, sense: &mut [u8]) -> Inquiry {
    let form = stated(
        form,
        "form-not-asked-by-inquiry",
        "form-default-not-of-inquiry",
    );
    write_refusal(number, form, sense);
    Inquiry {
        number,
        status: refusal::status(number),
        shown: SHOWS_ROOM,
        count: 0,
    }
}
