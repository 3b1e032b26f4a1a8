//! The board's work in plain Rust, unproved, and safe but for the C calls at the end: what bench/run sets beside the board's own.
//! It is written from the rules and from include/piongseut.h, and reads IDENTIFY blocks on its own, not as tools/identify.py or the
//! second program does: readings that share nothing judge each other. `Err` holds a refusal number.

const GOOD: u8 = 0x00;
const CHECK_CONDITION: u8 = 0x02;
const BUSY: u8 = 0x08;
const NONE: u8 = 0xFF;

type Block = [u8; 512];

// ---- The shapes of the header ----

#[repr(C)]
pub struct InquiryAnswer {
    number: u8,
    status: u8,
    shown: u8,
    count: usize,
}

#[repr(C)]
#[derive(Clone, Copy, Default)]
pub struct Order {
    length: u32,
    auxiliary: u32,
    features: u16,
    count: u16,
    lba_low: u16,
    lba_mid: u16,
    lba_high: u16,
    quiet_seconds: u16,
    sectors_per_block: u16,
    device: u8,
    command: u8,
    protocol: u8,
    ck_cond: u8,
    extend: u8,
    direction: u8,
}

#[repr(C)]
#[derive(Clone, Copy, Default)]
pub struct Pending {
    state: u32,
    order: Order,
    older: Order,
}

#[repr(C)]
pub struct Taken {
    number: u8,
    status: u8,
    order: Order,
}

#[repr(C)]
pub struct Ended {
    number: u8,
    status: u8,
    lost: u8,
    lost_protocol: u8,
}

#[repr(C)]
pub struct Written {
    number: u8,
    count: usize,
}

#[repr(C)]
#[derive(Clone, Copy, Default)]
pub struct Ports {
    chosen: u16,
    relative: u16,
}

#[repr(C)]
pub struct Name {
    number: u8,
    form: u8,
    name: [u8; 60],
    ports: Ports,
    address: [u8; 8],
}

#[repr(C)]
pub struct RollAnswer {
    number: u8,
    blocks: u16,
    drives: u16,
}

#[repr(C)]
pub struct Intake {
    pub have: u16,
    pub sum: u16,
}

#[repr(C)]
pub struct IntakeAnswer {
    pub next: Intake,
    pub used: u16,
    pub number: u8,
    pub complete: u8,
}

#[repr(C)]
pub struct IntakeCount {
    number: u8,
    count: usize,
}

#[repr(C)]
#[derive(Clone, Copy, Default)]
pub struct Census {
    pub blocks: u16,
    pub named: u16,
    pub unnamed: u16,
    pub udma: [u16; 8],
    pub version: [u16; 15],
}

#[repr(C)]
pub struct CensusAnswer {
    pub next: Census,
    pub number: u8,
}

#[repr(C)]
#[derive(Default)]
pub struct Built {
    number: u8,
    size: u8,
    command: [u8; 16],
}

#[repr(C)]
#[derive(Default)]
pub struct Checked {
    number: u8,
    accepted: u8,
    tag: u8,
    place: usize,
}

// ---- Sense ----

const FIELD: [u8; 3] = [0x05, 0x24, 0x00];

/// Key, ASC and ASCQ of each refusal number. Key 0: no sense bytes.
#[rustfmt::skip]
const TABLE: [[u8; 3]; 21] = [
    [0; 3], [0; 3], FIELD, [0x05, 0x20, 0x00], FIELD, FIELD, [0x02, 0x04, 0x00], [0x0B, 0x00, 0x00], [0; 3],
    FIELD, [0; 3], FIELD, FIELD, FIELD, FIELD, [0; 3], [0; 3], [0; 3], [0; 3], FIELD, FIELD,
];

/// The one number that states the descriptor form; all others come to the fixed form.
const DESCRIPTOR: u8 = 2;

/// The fixed form of a refusal, into which a report puts the registers.
fn fixed([key, asc, ascq]: [u8; 3]) -> [u8; 18] {
    [0x70, 0, key, 0, 0, 0, 0, 0x0A, 0, 0, 0, 0, asc, ascq, 0, 0, 0, 0]
}

/// Writes the sense bytes of a refusal, and gives its status.
fn refuse(number: u8, form: u8, sense: &mut [u8]) -> u8 {
    match (number, TABLE[usize::from(number)]) {
        (10, _) => return BUSY,
        (_, [0, ..]) => return NONE,
        (_, codes) if form != DESCRIPTOR => sense[..18].copy_from_slice(&fixed(codes)),
        (_, [key, asc, ascq]) => sense[..8].copy_from_slice(&[0x72, key, asc, ascq, 0, 0, 0, 0]),
    }
    CHECK_CONDITION
}

/// Writes the sense bytes that report registers, and gives the status.
fn report(codes: [u8; 3], extend: bool, registers: &[u8; 11], form: u8, sense: &mut [u8]) -> u8 {
    if form != DESCRIPTOR {
        let [error, c, c0, l, l0, m, m0, h, h0, device, status] = *registers;
        let flags = if extend { 0x80 | u8::from(c != 0) << 6 | u8::from(l | m | h != 0) << 5 } else { 0 };
        let mut bytes = fixed(codes);
        bytes[3..7].copy_from_slice(&[error, status, device, c0]);
        bytes[8..12].copy_from_slice(&[flags, l0, m0, h0]);
        sense[..18].copy_from_slice(&bytes);
        return CHECK_CONDITION;
    }
    let [key, asc, ascq] = codes;
    let mut bytes = [0x72, key, asc, ascq, 0, 0, 0, 0x0E, 0x09, 0x0C, extend.into(), 0, 0, 0, 0, 0, 0, 0, 0, 0, 0, 0];
    bytes[11..].copy_from_slice(registers);
    if !extend {
        [12, 14, 16, 18].iter().for_each(|&upper| bytes[upper] = 0);
    }
    sense[..22].copy_from_slice(&bytes);
    CHECK_CONDITION
}

// ---- INQUIRY ----

/// Refuses a block that carries a checksum, A5h in byte 510, and does not sum to 0.
fn sound(block: &[u8]) -> Result<(), u8> {
    let wrong = block[510] == 0xA5 && block.iter().fold(0u8, |sum, &byte| sum.wrapping_add(byte)) != 0;
    if wrong { Err(18) } else { Ok(()) }
}

fn kept(byte: u8) -> u8 {
    byte
}

fn spaced(byte: u8) -> u8 {
    if byte == 0 { b' ' } else { byte }
}

/// Copies words with their two bytes exchanged, each byte as `shown` shows it.
fn turn(from: &[u8], to: &mut [u8], shown: fn(u8) -> u8) {
    for (word, turned) in from.chunks_exact(2).zip(to.chunks_exact_mut(2)) {
        turned[0] = shown(word[1]);
        turned[1] = shown(word[0]);
    }
}

fn standard_data(block: &Block) -> [u8; 36] {
    let mut page = *b"\x00\x00\x05\x02\x1F\x00\x00\x00ATA                         ";
    page[1] = block[0] & 0x80;
    turn(&block[54..70], &mut page[16..32], kept);
    let revision = if block[50..54] == *b"    " { &block[46..50] } else { &block[50..54] };
    turn(revision, &mut page[32..], kept);
    page
}

fn page80(block: &Block) -> [u8; 24] {
    let mut page = [0; 24];
    page[..4].copy_from_slice(&[0x00, 0x80, 0x00, 0x14]);
    turn(&block[20..40], &mut page[4..], spaced);
    page
}

const NAME_HEAD: [u8; 8] = [0x00, 0x83, 0x00, 0x0C, 0x01, 0x03, 0x00, 0x08];
const TEXTS_HEAD: [u8; 16] = *b"\x00\x83\x00\x48\x02\x01\x00\x44ATA     ";

/// Byte 175 is the upper half of word 87, whose bits 15:14 and bit 8 say whether the name counts.
fn carries_name(block: &[u8]) -> bool {
    block[175] & 0xC1 == 0x41 && block[216..224] != [0; 8]
}

/// What page 83h is to tell of the path to a drive.
#[derive(Clone, Copy)]
struct Path<'a> {
    relative: Option<u16>,
    address: Option<&'a [u8; 8]>,
}

impl<'a> Path<'a> {
    /// None where an address is chosen and has another size.
    fn new(ports: Ports, address: &'a [u8]) -> Option<Path<'a>> {
        let address = if ports.chosen & 2 != 0 { Some(address.try_into().ok()?) } else { None };
        Some(Path { relative: (ports.chosen & 1 != 0).then(|| ports.relative), address })
    }
}

/// Writes the first bytes of page 83h, as many as the allocation length lets through.
fn page83(block: &Block, path: Path, most: usize, room: &mut [u8]) -> Result<usize, u8> {
    if !matches!(path.relative, None | Some(1 | 2)) {
        return Err(19);
    }
    if carries_name(block) {
        let mut page = [0; 36];
        page[..8].copy_from_slice(&NAME_HEAD);
        turn(&block[216..224], &mut page[8..16], kept);
        return show_with_ports(page, 16, path, most, room);
    }
    let mut page = [0; 96];
    page[..16].copy_from_slice(&TEXTS_HEAD);
    turn(&block[54..94], &mut page[16..56], spaced);
    turn(&block[20..40], &mut page[56..76], spaced);
    show_with_ports(page, 76, path, most, room)
}

/// Puts the path behind the name, which ends at this place, and shows the page.
fn show_with_ports<const N: usize>(mut page: [u8; N], name: usize, path: Path, most: usize, room: &mut [u8]) -> Result<usize, u8> {
    let mut end = name;
    if let Some(relative) = path.relative {
        page[end..end + 8].copy_from_slice(&[0x61, 0x94, 0x00, 0x04, 0x00, 0x00, 0x00, relative as u8]);
        end += 8;
    }
    if let Some(address) = path.address {
        page[end..end + 4].copy_from_slice(&[0x61, 0x93, 0x00, 0x08]);
        page[end + 4..end + 12].copy_from_slice(address);
        end += 12;
    }
    page[3] = (end - 4) as u8;
    show([&page[..end]], most, room)
}

/// The first 60 bytes of page 89h; the block follows them.
fn page89_head(drive: &Drive, packet: bool) -> [u8; 60] {
    let mut page = [0; 60];
    page[0] = drive.block.map_or(0, |block| if packet { block[1] & 0x1F } else { 0 });
    page[1..4].copy_from_slice(&[0x89, 0x02, 0x38]);
    page[8..36].copy_from_slice(drive.texts);
    page[36..56].copy_from_slice(drive.signature);
    page[56] = if packet { 0xA1 } else { 0xEC };
    page
}

/// Writes the first bytes of a packet drive's page 00h: its own, with 89h put into the list.
fn packet_page00(reply: &[u8], most: usize, room: &mut [u8]) -> Result<usize, u8> {
    let list = reply.get(4..).and_then(|codes| codes.get(..reply[3].into())).ok_or(7)?;
    let (low, high) = list.split_at(list.partition_point(|&code| code < 0x89));
    let high = high.strip_prefix(&[0x89]).unwrap_or(high);
    let count = u8::try_from(low.len() + 1 + high.len()).map_err(|_| 7)?;
    if reply[1] != 0 || list.windows(2).any(|pair| pair[0] >= pair[1]) {
        return Err(7);
    }
    show([&[reply[0], 0x00, reply[2], count], low, &[0x89], high], most, room)
}

/// Writes the first bytes of a page that stands in parts, and gives their number.
fn show<const N: usize>(parts: [&[u8]; N], most: usize, room: &mut [u8]) -> Result<usize, u8> {
    let count = most.min(parts.iter().map(|part| part.len()).sum());
    let room = room.get_mut(..count).ok_or(8)?;
    let mut at = 0;
    for part in parts {
        let end = count.min(at + part.len());
        room[at..end].copy_from_slice(&part[..end - at]);
        at = end;
    }
    Ok(count)
}

/// What the drive, and the translator for it, say of themselves.
struct Drive<'a> {
    block: Option<&'a Block>,
    signature: &'a [u8; 20],
    texts: &'a [u8; 28],
    reply: &'a [u8],
    path: Path<'a>,
}

impl<'a> Drive<'a> {
    fn new(block: &'a [u8], signature: &'a [u8], texts: &'a [u8], reply: &'a [u8], path: Option<Path<'a>>) -> Option<Drive<'a>> {
        let block = if block.is_empty() { None } else { Some(block.try_into().ok()?) };
        Some(Drive { block, signature: signature.try_into().ok()?, texts: texts.try_into().ok()?, reply, path: path? })
    }
}

const REPLY: u8 = 0;
const ROOM: u8 = 1;

/// What is shown, and how many bytes of it.
fn inquiry(command: &[u8], drive: &Drive, room: &mut [u8]) -> Result<(u8, usize), u8> {
    drive.block.map_or(Ok(()), |block| sound(block))?;
    let (flags, page, most, control) = match *command {
        [0x12, flags, page, high, low, control, ..] => (flags & 3, page, u16::from_be_bytes([high, low]).into(), control),
        [] | [0x12, ..] => return Err(2),
        _ => return Err(3),
    };
    let packet = drive.signature[5..7] == [0x14, 0xEB];
    let count = match (packet, flags, page, drive.block) {
        (true, 1, 0x00, _) => packet_page00(drive.reply, most, room),
        (false, _, _, _) if control & 4 != 0 || flags & 2 != 0 || (flags == 0 && page != 0) => Err(4),
        (_, 1, 0x89, block) => show([&page89_head(drive, packet), block.unwrap_or(&[0; 512])], most, room),
        (true, _, _, _) => return Ok((REPLY, most.min(drive.reply.len()))),
        (false, 1, 0x00, _) => show([&[0x00, 0x00, 0x00, 0x04, 0x00, 0x80, 0x83, 0x89]], most, room),
        (false, 1, 0x01..=0x7F | 0x81 | 0x82 | 0x84..=0xFF, _) => Err(5),
        (false, _, _, None) => Err(6),
        (false, 1, 0x80, Some(block)) => show([&page80(block)], most, room),
        (false, 1, _, Some(block)) => page83(block, drive.path, most, room),
        (false, _, _, Some(block)) => show([&standard_data(block)], most, room),
    };
    Ok((ROOM, count?))
}

// ---- Orders ----

/// A pass-through command of any form. Without EXTEND the upper register bytes are zero.
struct Asked {
    first: u8,
    second: u8,
    extend: bool,
    registers: [u16; 5],
    device: u8,
    command: u8,
    control: u8,
    auxiliary: u32,
    is_pass_through: bool,
}

fn read(command: &[u8], later: bool) -> Result<Asked, u8> {
    match *command {
        [0xA1, first, second, f, c, l, m, h, device, command, _, control, ..] => {
            let registers = [f, c, l, m, h].map(u16::from);
            Ok(Asked { first, second, extend: false, registers, device, command, control, auxiliary: 0, is_pass_through: true })
        }
        [0x85, first, second, f, f0, c, c0, l, l0, m, m0, h, h0, device, command, control, ..] => {
            let registers = [[f, f0], [c, c0], [l, l0], [m, m0], [h, h0]];
            Ok(Asked { device, command, control, ..extended(first, second, registers) })
        }
        [0x7F, control, _, _, _, _, _, size, a, b, first, second, _, _, h, m, l, h0, m0, l0, f, f0, c, c0, device, command, _, _, x, y, z,
            w, ..] if later =>
        {
            let registers = [[f, f0], [c, c0], [l, l0], [m, m0], [h, h0]];
            let (auxiliary, is_pass_through) = (u32::from_be_bytes([x, y, z, w]), [size, a, b] == [0x18, 0x1F, 0xF0]);
            Ok(Asked { device, command, control, auxiliary, is_pass_through, ..extended(first, second, registers) })
        }
        [] | [0xA1 | 0x85, ..] => Err(2),
        [0x7F, ..] if later => Err(2),
        _ => Err(3),
    }
}

/// The flags and the registers of a form that has upper bytes.
fn extended(first: u8, second: u8, registers: [[u8; 2]; 5]) -> Asked {
    let extend = first & 1 != 0;
    let mask = if extend { 0xFFFF } else { 0x00FF };
    let registers = registers.map(|bytes| u16::from_be_bytes(bytes) & mask);
    Asked { first, second, extend, registers, device: 0, command: 0, control: 0, auxiliary: 0, is_pass_through: true }
}

/// What the length of the data hangs on besides the command. The first edition has no block.
struct Host<'a> {
    later: bool,
    block: Option<&'a Block>,
    declared: u32,
}

/// The bytes of a logical sector.
fn sector_size(block: &Block) -> u64 {
    match block[213] & 0xD0 {
        0x50 => 2 * u64::from(u32::from_le_bytes([block[234], block[235], block[236], block[237]])),
        _ => 512,
    }
}

/// The length of the data in bytes, which T_LENGTH takes from one of three places; 6 where it hangs on a block that is not there.
fn length_of(asked: &Asked, host: &Host) -> Result<u64, u8> {
    let number = match asked.second & 3 {
        0 => 0,
        1 => asked.registers[0],
        2 => asked.registers[1],
        _ => return Ok(host.declared.into()),
    };
    let unit = match asked.second & 0x14 {
        0x14 if host.later => sector_size(host.block.ok_or(6)?),
        0x04 | 0x14 => 512,
        _ => 1,
    };
    Ok(u64::from(number) * unit)
}

fn order_of(asked: &Asked, protocol: u8, host: &Host) -> Result<Order, u8> {
    let quiet_seconds = (2 << (asked.second >> 6)) - 2;
    if protocol < 2 {
        return Ok(Order { protocol, quiet_seconds, sectors_per_block: 1, ..Order::default() });
    }
    let data = !matches!(protocol, 3 | 8 | 9);
    let from_drive = asked.second & 8 != 0;
    match (protocol, from_drive) {
        _ if data == (asked.second & 3 == 0) => return Err(11),
        (4 | 10, false) | (5 | 11, true) => return Err(12),
        _ => (),
    }
    let length = match if data { length_of(asked, host)? } else { 0 } {
        0 if data => return Err(13),
        length => u32::try_from(length).ok().filter(|&length| length <= host.declared).ok_or(14)?,
    };
    let [features, count, lba_low, lba_mid, lba_high] = asked.registers;
    Ok(Order {
        length,
        auxiliary: asked.auxiliary,
        features,
        count,
        lba_low,
        lba_mid,
        lba_high,
        quiet_seconds,
        sectors_per_block: 1 << (asked.first >> 5),
        device: asked.device,
        command: asked.command,
        protocol,
        ck_cond: asked.second >> 5 & 1,
        extend: asked.extend.into(),
        direction: if !data { 0 } else if from_drive { 1 } else { 2 },
    })
}

fn submit(
    record: &mut Pending, command: &[u8], registers: &[u8], host: &Host, form: u8, sense: &mut [u8],
) -> Result<(u8, Order), u8> {
    let registers = registers.try_into().ok().filter(|_| sense.len() >= 22).ok_or(1)?;
    host.block.map_or(Ok(()), |block| sound(block))?;
    let asked = read(command, host.later)?;
    match asked.first >> 1 & 15 {
        _ if asked.control & 4 != 0 => Err(4),
        _ if !asked.is_pass_through => Err(20),
        2 | 7 | 12 | 13 | 14 => Err(9),
        15 => Ok((report([0x01, 0x00, 0x1D], false, registers, form, sense), Order::default())),
        protocol if !has_place(record, protocol) => Err(10),
        protocol => {
            let order = order_of(&asked, protocol, host)?;
            hold(record, order);
            Ok((NONE, order))
        }
    }
}

/// Whether an order of this protocol is taken: all with nothing pending, and a reset over what is no reset.
fn has_place(record: &Pending, protocol: u8) -> bool {
    match record.state {
        0 => true,
        2 => false,
        _ => protocol < 2 && record.order.protocol > 1,
    }
}

/// What was pending goes under a reset.
fn hold(record: &mut Pending, order: Order) {
    *record = match record.state {
        0 => Pending { state: 1, order, older: Order::default() },
        _ => Pending { state: 2, order, older: record.order },
    };
}

/// The status, and the protocol of the order that is lost.
fn complete(record: &mut Pending, registers: &[u8], form: u8, sense: &mut [u8]) -> Result<(u8, Option<u8>), u8> {
    let registers: &[u8; 11] = registers.try_into().ok().filter(|_| sense.len() >= 22).ok_or(1)?;
    if record.state == 0 {
        return Err(15);
    }
    let Pending { state, order, older } = std::mem::take(record);
    let status = if registers[10] & 0x21 != 0 {
        report([0x0B, 0x00, 0x00], order.extend != 0, registers, form, sense)
    } else if order.ck_cond != 0 {
        report([0x01, 0x00, 0x1D], order.extend != 0, registers, form, sense)
    } else {
        GOOD
    };
    Ok((status, (state == 2).then(|| older.protocol)))
}

// ---- The builder ----

/// Whether some command gives an order these fields, but for seconds and sectors; a reset has nothing else.
fn is_made(order: &Order) -> bool {
    let registers = order.features | order.count | order.lba_low | order.lba_mid | order.lba_high;
    let data = (order.length != 0, order.direction);
    let fits = match order.protocol {
        0 | 1 => {
            let others = [order.device, order.command, order.ck_cond, order.extend];
            data == (false, 0) && registers == 0 && others == [0; 4] && order.sectors_per_block == 1
        }
        3 | 8 | 9 => data == (false, 0),
        4 | 10 => data == (true, 1),
        5 | 11 => data == (true, 2),
        6 => data == (true, 1) || data == (true, 2),
        _ => false,
    };
    let upper = registers > 0xFF && order.extend == 0;
    fits && !upper && order.auxiliary == 0 && order.ck_cond < 2 && order.extend < 2
}

/// Places 0 to 3 of the seconds, and 0 to 7 of the sectors.
fn off_line_and_multiple_count(order: &Order) -> Option<(u8, u8)> {
    let off_line = match order.quiet_seconds {
        0 => 0,
        2 => 1,
        6 => 2,
        14 => 3,
        _ => return None,
    };
    let sectors = order.sectors_per_block;
    (sectors.is_power_of_two() && sectors <= 128).then(|| (off_line, sectors.trailing_zeros() as u8))
}

/// BYTE_BLOCK and T_LENGTH: the first place that has the length.
fn length_bits(order: &Order) -> u8 {
    let (features, count) = (u32::from(order.features), u32::from(order.count));
    match order.length {
        0 => 0,
        length if length == 512 * count => 6,
        length if length == count => 2,
        length if length == 512 * features => 5,
        length if length == features => 1,
        _ => 3,
    }
}

fn build(order: &Order) -> Option<Built> {
    let (off_line, multiple_count) = off_line_and_multiple_count(order).filter(|_| is_made(order))?;
    let first = multiple_count << 5 | order.protocol << 1 | order.extend;
    let second = off_line << 6 | order.ck_cond << 5 | u8::from(order.direction == 1) << 3 | length_bits(order);
    let registers = [order.features, order.count, order.lba_low, order.lba_mid, order.lba_high];
    let [[f, f0], [c, c0], [l, l0], [m, m0], [h, h0]] = registers.map(u16::to_be_bytes);
    let (device, command) = (order.device, order.command);
    Some(if order.extend == 1 {
        Built { number: 0, size: 16, command: [0x85, first, second, f, f0, c, c0, l, l0, m, m0, h, h0, device, command, 0] }
    } else {
        Built { number: 0, size: 12, command: [0xA1, first, second, f0, c0, l0, m0, h0, device, command, 0, 0, 0, 0, 0, 0] }
    })
}

// ---- The reader of page 83h, and the roll ----

/// What a page 83h tells, but for the number.
fn read_page83(page: &[u8], told: &mut Name) -> Option<()> {
    let path = match page {
        [0x00, 0x83, 0x00, _, 0x01, 0x03, 0x00, 0x08, rest @ ..] => {
            let name = rest.get(..8).filter(|name| **name != [0; 8])?;
            told.name[..8].copy_from_slice(name);
            told.form = 1;
            &rest[8..]
        }
        [0x00, 0x83, 0x00, _, 0x02, 0x01, 0x00, 0x44, rest @ ..] => {
            let rest = rest.strip_prefix(b"ATA     ")?;
            let texts = rest.get(..60).filter(|texts| !texts.contains(&0))?;
            told.name.copy_from_slice(texts);
            told.form = 2;
            &rest[60..]
        }
        _ => return None,
    };
    let rest = match path {
        [0x61, 0x94, 0x00, 0x04, 0x00, 0x00, 0x00, port @ (1 | 2), rest @ ..] => {
            told.ports = Ports { chosen: 1, relative: u16::from(*port) };
            rest
        }
        _ => path,
    };
    if let [0x61, 0x93, 0x00, 0x08, address @ ..] = rest {
        told.address = address.try_into().ok()?;
        told.ports.chosen |= 2;
    } else if !rest.is_empty() {
        return None;
    }
    (usize::from(page[3]) + 4 == page.len()).then(|| ())
}

/// Whether two texts are equal with zero bytes read as spaces.
fn same_text(a: &[u8], b: &[u8]) -> bool {
    a.iter().zip(b).all(|(&x, &y)| spaced(x) == spaced(y))
}

fn same_drive(a: &[u8], b: &[u8]) -> bool {
    match (carries_name(a), carries_name(b)) {
        (true, true) => a[216..224] == b[216..224],
        (false, false) => same_text(&a[54..94], &b[54..94]) && same_text(&a[20..40], &b[20..40]),
        _ => false,
    }
}

fn roll(bytes: &[u8], rows: &mut [u16]) -> Result<(u16, u16), u8> {
    if bytes.len() % 512 != 0 || bytes.len() > 32768 || rows.len() < bytes.len() / 512 {
        return Err(1);
    }
    bytes.chunks_exact(512).try_for_each(sound)?;
    let mut drives = 0;
    for (i, block) in bytes.chunks_exact(512).enumerate() {
        let first = bytes.chunks_exact(512).take(i).position(|before| same_drive(before, block));
        rows[i] = first.map_or(drives + 1, |j| rows[j]);
        drives += u16::from(first.is_none());
    }
    Ok(((bytes.len() / 512) as u16, drives))
}

// ---- The intake ----

/// What the intake has after the run, with the sum, and how many bytes of the run it used.
fn take(intake: &Intake, store: &mut [u8], run: &[u8]) -> Option<(Intake, u16)> {
    let store: &mut Block = store.try_into().ok()?;
    let free = store.get_mut(intake.have.into()..)?;
    let run = &run[..run.len().min(free.len())];
    free[..run.len()].copy_from_slice(run);
    let sum = run.iter().fold(intake.sum as u8, |sum, &byte| sum.wrapping_add(byte));
    let used = run.len() as u16;
    Some((Intake { have: intake.have + used, sum: sum.into() }, used))
}

/// Copies the stores of the complete intakes, and gives the number of their bytes.
fn gather(haves: &[u16], stores: &[u8], room: &mut [u8]) -> Result<usize, u8> {
    if stores.len() % 512 != 0 || stores.len() / 512 != haves.len() || haves.iter().any(|&have| have > 512) {
        return Err(1);
    }
    let complete = stores.chunks_exact(512).zip(haves).filter(|(_, &have)| have == 512);
    complete.clone().try_for_each(|(store, _)| sound(store))?;
    let room = room.get_mut(..512 * complete.clone().count()).ok_or(8)?;
    for (place, (store, _)) in room.chunks_exact_mut(512).zip(complete) {
        place.copy_from_slice(store);
    }
    Ok(room.len())
}

// ---- The census ----

fn word(block: &Block, at: usize) -> u16 {
    u16::from_le_bytes([block[2 * at], block[2 * at + 1]])
}

/// The place of the highest one bit, if any.
fn highest(bits: u16) -> Option<usize> {
    bits.checked_sub(1).map(|_| 15 - bits.leading_zeros() as usize)
}

/// Whether each grouping has as many blocks as the census.
fn adds_up(census: &Census) -> bool {
    let sum = |classes: &[u16]| classes.iter().map(|&class| u32::from(class)).sum::<u32>() == u32::from(census.blocks);
    sum(&[census.named, census.unnamed]) && sum(&census.udma) && sum(&census.version)
}

fn census_feed(mut census: Census, block: &[u8]) -> Result<Census, u8> {
    let block: &Block = block.try_into().map_err(|_| 1)?;
    if census.blocks == u16::MAX || !adds_up(&census) {
        return Err(17);
    }
    sound(block)?;
    let modes = if word(block, 53) & 4 != 0 { word(block, 88) & 0x7F } else { 0 };
    let versions = if word(block, 80) == 0xFFFF { 0 } else { word(block, 80) & 0x7FFE };
    census.blocks += 1;
    *(if carries_name(block) { &mut census.named } else { &mut census.unnamed }) += 1;
    census.udma[highest(modes).unwrap_or(7)] += 1;
    census.version[highest(versions).map_or(14, |version| version - 1)] += 1;
    Ok(census)
}

// ---- The check of a capture ----

const TAGS: [u8; 5] = [0x00, 0x01, 0x80, 0x83, 0x89];

/// The fields by their places among the tags, and page 89h; or the place where the layout is broken.
fn fields(capture: &[u8]) -> Result<([Option<&[u8]>; 5], &[u8; 572]), usize> {
    let mut found = [None; 5];
    let (mut at, mut next) = (0, 0);
    while at < capture.len() {
        let tag = next + TAGS[next..].iter().position(|&tag| tag == capture[at]).ok_or(at)?;
        let size = capture.get(at + 1..at + 3).map(|two| usize::from(two[0]) << 8 | usize::from(two[1])).ok_or(at)?;
        let bytes = capture.get(at + 3..at + 3 + size).ok_or(at)?;
        if TAGS[tag] == 0x89 && size != 572 {
            return Err(at);
        }
        found[tag] = Some(bytes);
        next = tag + 1;
        at += 3 + size;
    }
    let page = found[4].and_then(|page| page.try_into().ok()).ok_or(capture.len())?;
    Ok((found, page))
}

/// Where a field differs from its page, if it does.
fn differs(field: &[u8], page: &[u8]) -> Option<usize> {
    if field == page {
        return None;
    }
    Some(field.iter().zip(page).take_while(|(byte, wanted)| byte == wanted).count())
}

/// Only a choice whose length stands in byte 3 gets further, and no port and no address further than the field's own.
fn differs83(field: &[u8], block: &Block) -> Option<usize> {
    let name = if carries_name(block) { 16 } else { 76 };
    let more = field.get(3).map_or(0, |&length| (usize::from(length) + 4).wrapping_sub(name));
    let relative = if more == 8 || more == 20 { Some(if field.get(name + 7) == Some(&2) { 2 } else { 1 }) } else { None };
    let mut own = [0; 8];
    let there = field.get(name + more.min(20).saturating_sub(8)..).unwrap_or(&[]);
    own.iter_mut().zip(there).for_each(|(byte, &its)| *byte = its);
    let address = if more == 12 || more == 20 { Some(&own) } else { None };
    let mut page = [0; 96];
    let size = page83(block, Path { relative, address }, usize::MAX, &mut page).unwrap_or(0);
    differs(field, &page[..size])
}

/// The field's tag and place, of the first that differs.
fn first_fault(found: &[Option<&[u8]>; 5], page: &[u8; 572], drive: &Drive, block: &Block) -> Option<(u8, usize)> {
    let place = |at: usize| match (found[at]?, at) {
        (field, 0) => differs(field, &[0x00, 0x00, 0x00, 0x04, 0x00, 0x80, 0x83, 0x89]),
        (field, 1) => differs(field, &standard_data(block)),
        (field, 2) => differs(field, &page80(block)),
        (field, 3) => differs83(field, block),
        _ => differs(&page[..60], &page89_head(drive, false)),
    };
    (0..5).find_map(|at| Some((TAGS[at], place(at)?)))
}

fn check(capture: &[u8]) -> Checked {
    let (found, page) = match fields(capture) {
        Ok(found) => found,
        Err(place) => return Checked { number: 21, place, ..Checked::default() },
    };
    let path = Path { relative: None, address: None };
    let (texts, signature, block) = (&page[8..36], &page[36..56], &page[60..]);
    if signature[5..7] == [0x14, 0xEB] {
        return Checked { number: 22, ..Checked::default() };
    }
    if let Err(number) = sound(block) {
        return Checked { number, ..Checked::default() };
    }
    let drive = Drive::new(block, signature, texts, &[], Some(path));
    match drive.and_then(|drive| first_fault(&found, page, &drive, drive.block?)) {
        Some((tag, place)) => Checked { tag, place, ..Checked::default() },
        None => Checked { accepted: 1, ..Checked::default() },
    }
}

// ---- The C calls. Each lends its pieces for as many bytes as the numbers behind the pointers say. ----

use std::slice::{from_raw_parts as lent, from_raw_parts_mut as lent_mut};

#[no_mangle]
pub extern "C" fn plain_record_empty() -> Pending {
    Pending::default()
}

/// # Safety
/// As the header says of piongseut_inquiry.
#[no_mangle]
pub unsafe extern "C" fn plain_inquiry(
    command: *const u8, command_size: usize, block: *const u8, block_size: usize, signature: *const u8, signature_size: usize,
    texts: *const u8, texts_size: usize, reply: *const u8, reply_size: usize, ports: Ports, address: *const u8, address_size: usize,
    form: u8, room: *mut u8, room_size: usize, sense: *mut u8, sense_size: usize,
) -> InquiryAnswer {
    let (texts, reply) = (lent(texts, texts_size), lent(reply, reply_size));
    let path = Path::new(ports, lent(address, address_size));
    let drive = Drive::new(lent(block, block_size), lent(signature, signature_size), texts, reply, path);
    let sense = lent_mut(sense, sense_size);
    let drive = drive.filter(|_| sense.len() >= 22).ok_or(1);
    match drive.and_then(|drive| inquiry(lent(command, command_size), &drive, lent_mut(room, room_size))) {
        Ok((shown, count)) => InquiryAnswer { number: 0, status: GOOD, shown, count },
        Err(number) => InquiryAnswer { number, status: refuse(number, form, sense), shown: ROOM, count: 0 },
    }
}

/// # Safety
/// As the header says of piongseut_submit.
#[no_mangle]
pub unsafe extern "C" fn plain_submit(
    record: &mut Pending, command: *const u8, command_size: usize, registers: *const u8, registers_size: usize, block: *const u8,
    block_size: usize, declared: u32, edition: u8, form: u8, sense: *mut u8, sense_size: usize,
) -> Taken {
    let (command, registers) = (lent(command, command_size), lent(registers, registers_size));
    let sense = lent_mut(sense, sense_size);
    let later = edition == 2;
    let block = match if later { block_size } else { 0 } {
        0 => Ok(None),
        _ => lent(block, block_size).try_into().map(Some).map_err(|_| 1),
    };
    let taken = block.and_then(|block| submit(record, command, registers, &Host { later, block, declared }, form, sense));
    match taken {
        Ok((status, order)) => Taken { number: 0, status, order },
        Err(number) => Taken { number, status: refuse(number, form, sense), order: Order::default() },
    }
}

/// # Safety
/// As the header says of piongseut_complete.
#[no_mangle]
pub unsafe extern "C" fn plain_complete(
    record: &mut Pending, registers: *const u8, registers_size: usize, form: u8, sense: *mut u8, sense_size: usize,
) -> Ended {
    let sense = lent_mut(sense, sense_size);
    match complete(record, lent(registers, registers_size), form, sense) {
        Ok((status, lost)) => Ended { number: 0, status, lost: lost.is_some().into(), lost_protocol: lost.unwrap_or(0) },
        Err(number) => Ended { number, status: refuse(number, form, sense), lost: 0, lost_protocol: 0 },
    }
}

/// # Safety
/// As the header says of piongseut_check.
#[no_mangle]
pub unsafe extern "C" fn plain_check(capture: *const u8, capture_size: usize) -> Checked {
    check(lent(capture, capture_size))
}

/// # Safety
/// As the header says of piongseut_write_page83.
#[no_mangle]
pub unsafe extern "C" fn plain_write_page83(
    block: *const u8, block_size: usize, ports: Ports, address: *const u8, address_size: usize, room: *mut u8, room_size: usize,
) -> Written {
    let path = Path::new(ports, lent(address, address_size)).ok_or(1);
    let block = lent(block, block_size).try_into().map_err(|_| 1);
    let lent = path.and_then(|path| block.and_then(|block: &Block| sound(block).map(|_| (block, path))));
    match lent.and_then(|(block, path)| page83(block, path, usize::MAX, lent_mut(room, room_size))) {
        Ok(count) => Written { number: 0, count },
        Err(number) => Written { number, count: 0 },
    }
}

/// # Safety
/// As the header says of piongseut_read_page83.
#[no_mangle]
pub unsafe extern "C" fn plain_read_page83(page: *const u8, page_size: usize) -> Name {
    let mut told = Name { number: 0, form: 0, name: [0; 60], ports: Ports::default(), address: [0; 8] };
    match read_page83(lent(page, page_size), &mut told) {
        Some(()) => told,
        None => Name { number: 16, form: 0, name: [0; 60], ports: Ports::default(), address: [0; 8] },
    }
}

/// # Safety
/// As the header says of piongseut_roll.
#[no_mangle]
pub unsafe extern "C" fn plain_roll(blocks: *const u8, blocks_size: usize, rows: *mut u16, rows_size: usize) -> RollAnswer {
    match roll(lent(blocks, blocks_size), lent_mut(rows, rows_size)) {
        Ok((blocks, drives)) => RollAnswer { number: 0, blocks, drives },
        Err(number) => RollAnswer { number, blocks: 0, drives: 0 },
    }
}

/// # Safety
/// As the header says of piongseut_intake_take.
#[no_mangle]
pub unsafe extern "C" fn plain_intake_take(
    intake: Intake, store: *mut u8, store_size: usize, run: *const u8, run_size: usize,
) -> IntakeAnswer {
    match take(&intake, lent_mut(store, store_size), lent(run, run_size)) {
        Some((next, used)) => IntakeAnswer { complete: (next.have == 512).into(), next, used, number: 0 },
        None => IntakeAnswer { next: intake, used: 0, number: 1, complete: 0 },
    }
}

/// # Safety
/// As the header says of piongseut_intake_gather.
#[no_mangle]
pub unsafe extern "C" fn plain_intake_gather(
    haves: *const u16, intake_count: usize, stores: *const u8, stores_size: usize, room: *mut u8, room_size: usize,
) -> IntakeCount {
    match gather(lent(haves, intake_count), lent(stores, stores_size), lent_mut(room, room_size)) {
        Ok(count) => IntakeCount { number: 0, count },
        Err(number) => IntakeCount { number, count: 0 },
    }
}

#[no_mangle]
pub extern "C" fn plain_census_empty() -> Census {
    Census::default()
}

/// # Safety
/// As the header says of piongseut_census_feed.
#[no_mangle]
pub unsafe extern "C" fn plain_census_feed(census: Census, block: *const u8, block_size: usize) -> CensusAnswer {
    match census_feed(census, lent(block, block_size)) {
        Ok(next) => CensusAnswer { next, number: 0 },
        Err(number) => CensusAnswer { next: census, number },
    }
}

#[no_mangle]
pub extern "C" fn plain_build(order: Order) -> Built {
    build(&order).unwrap_or(Built { number: 23, ..Built::default() })
}
