//! Which refusals apply to a call, each looked at alone: to see that every
//! pair that can apply together was tried, and that the first one answered.

use crate::call::{
    census_in, numbers_in, Call, BUILD, CENSUS_FEED, CHECK, COMPLETE, INQUIRY, INTAKE_INQUIRY,
    INTAKE_ROLL, INTAKE_TAKE, READ, ROLL, SUBMIT, WRITE,
};
use crate::lent::carries_name;
use second::{Order, Record};

/// A set of refusal numbers: bit n for number n.
pub type Set = u32;

/// The pairs that can apply together, by function. The fields of a command
/// that is short or has another opcode are not looked at.
pub const PAIRS: [(u8, &[(usize, usize)]); 9] = [
    (INQUIRY, &IN_INQUIRY),
    (SUBMIT, &IN_SUBMIT),
    (COMPLETE, &[(1, 15)]),
    (WRITE, &[(1, 8), (8, 18), (1, 19), (8, 19), (18, 19)]),
    (ROLL, &[(1, 18)]),
    (INTAKE_INQUIRY, &IN_INQUIRY),
    (INTAKE_ROLL, &[(1, 8), (1, 18), (8, 18)]),
    (CENSUS_FEED, &[(1, 17), (17, 18)]),
    (CHECK, &[(18, 21), (18, 22), (21, 22)]),
];

const IN_INQUIRY: [(usize, usize); 24] = [
    (1, 2),
    (1, 3),
    (1, 4),
    (1, 5),
    (1, 6),
    (1, 7),
    (1, 8),
    (4, 5),
    (4, 6),
    (4, 8),
    (6, 8),
    (7, 8),
    (1, 18),
    (2, 18),
    (3, 18),
    (4, 18),
    (5, 18),
    (7, 18),
    (8, 18),
    (1, 19),
    (4, 19),
    (6, 19),
    (8, 19),
    (18, 19),
];

const IN_SUBMIT: [(usize, usize); 51] = [
    (1, 2),
    (1, 3),
    (1, 4),
    (1, 9),
    (1, 10),
    (1, 11),
    (1, 12),
    (1, 13),
    (1, 14),
    (2, 10),
    (3, 10),
    (4, 9),
    (4, 10),
    (4, 11),
    (4, 12),
    (4, 13),
    (4, 14),
    (9, 10),
    (10, 11),
    (10, 12),
    (10, 13),
    (10, 14),
    (11, 12),
    (12, 13),
    (12, 14),
    (1, 6),
    (1, 18),
    (1, 20),
    (4, 6),
    (4, 20),
    (6, 10),
    (6, 12),
    (6, 13),
    (6, 14),
    (6, 20),
    (2, 18),
    (3, 18),
    (4, 18),
    (9, 18),
    (10, 18),
    (11, 18),
    (12, 18),
    (13, 18),
    (14, 18),
    (18, 20),
    (9, 20),
    (10, 20),
    (11, 20),
    (12, 20),
    (13, 20),
    (14, 20),
];

fn set(conditions: &[(usize, bool)]) -> Set {
    let held = conditions.iter().filter(|(_, holds)| *holds);
    held.fold(0, |set, (number, _)| set | 1 << number)
}

/// The refusals in the order in which they are asked (RULES 3): 2 and 3 never
/// apply together, nor do 5, 7, 8 and 19 with 9 to 14.
const IN_ORDER: [u32; 23] = [
    1, 17, 21, 22, 18, 2, 3, 4, 20, 5, 9, 10, 11, 12, 6, 19, 7, 8, 13, 14, 15, 16, 23,
];

/// The refusal that answers; 0 where none applies.
pub fn first(set: Set) -> u32 {
    let applies = |number: &u32| set >> number & 1 == 1;
    IN_ORDER.into_iter().find(applies).unwrap_or(0)
}

/// Whether a block of any size is damaged (RULES 5), read here once more.
fn is_damaged(block: &[u8]) -> bool {
    let sum = block.iter().fold(0_u8, |sum, &byte| sum.wrapping_add(byte));
    block.len() == 512 && block[510] == 0xA5 && sum != 0
}

/// The refusals that apply to the call in this edition.
pub fn to(call: &Call, edition: u8) -> Set {
    let sizes: Vec<usize> = call.pieces.iter().map(Vec::len).collect();
    match call.function {
        INQUIRY => to_inquiry(call, &sizes),
        SUBMIT => to_submit(call, &sizes, edition == 2),
        COMPLETE => set(&[
            (1, sizes[0] != 11 || sizes[1] < 22),
            (15, call.record.state == 0),
        ]),
        WRITE => {
            let size = page83_size(call, &call.pieces[0]);
            set(&[
                (1, sizes[0] != 512 || address_is_refused(call, sizes[1])),
                (18, is_damaged(&call.pieces[0])),
                (19, port_is_refused(call)),
                (8, sizes[2] < size),
            ])
        }
        READ => set(&[(16, second::read_page83(&call.pieces[0]).number != 0)]),
        ROLL => set(&[
            (1, roll_is_refused(sizes[0], sizes[1] / 2)),
            (18, call.pieces[0].chunks(512).any(is_damaged)),
        ]),
        INTAKE_TAKE => set(&[(1, intake_is_refused(call))]),
        INTAKE_INQUIRY => set(&[(1, intake_is_refused(call))]) | to_its_block(call),
        INTAKE_ROLL => to_intakes(call, &sizes),
        CENSUS_FEED => set(&[
            (1, sizes[1] != 512),
            (17, census_is_refused(&call.pieces[0])),
            (18, is_damaged(&call.pieces[1])),
        ]),
        BUILD => set(&[(23, order_is_refused(&call.record.order))]),
        CHECK => to_capture(&call.pieces[0]),
        _ => 0,
    }
}

/// Whether some field of an order is none that a command can give it (RULES
/// 16.2). The second program asks no such list: it reads what it builds.
fn order_is_refused(order: &Order) -> bool {
    let seconds = [0, 2, 6, 14].contains(&order.quiet_seconds);
    if order.auxiliary != 0 || !seconds {
        return true;
    }
    let registers = [order.features, order.count].into_iter().chain([
        order.lba_low,
        order.lba_mid,
        order.lba_high,
    ]);
    let register_most = if order.extend == 0 { 0xFF } else { 0xFFFF };
    let data = (order.length != 0, order.direction);
    let fits = match order.protocol {
        0 | 1 => return *order != a_reset(order),
        3 | 8 | 9 => data == (false, 0),
        4 | 10 => data == (true, 1),
        5 | 11 => data == (true, 2),
        6 => data == (true, 1) || data == (true, 2),
        _ => false,
    };
    let sectors = order.sectors_per_block;
    !fits
        || order.ck_cond > 1
        || order.extend > 1
        || registers.max() > Some(register_most)
        || !sectors.is_power_of_two()
        || sectors > 128
}

/// The reset with the same protocol and quiet seconds.
fn a_reset(order: &Order) -> Order {
    Order {
        quiet_seconds: order.quiet_seconds,
        sectors_per_block: 1,
        protocol: order.protocol,
        ..Order::default()
    }
}

/// What a capture lacks, and what its page 89h says where that can be found.
fn to_capture(capture: &[u8]) -> Set {
    let (mut rest, mut last, mut whole) = (capture, None, true);
    let mut found = 0;
    while let [tag, high, low, behind @ ..] = rest {
        let size = usize::from(*high) << 8 | usize::from(*low);
        whole &= last < Some(*tag) && matches!(tag, 0x00 | 0x01 | 0x80 | 0x83 | 0x89);
        last = Some(*tag);
        let bytes = match behind.get(..size) {
            Some(bytes) => bytes,
            None => break,
        };
        if *tag == 0x89 && size == 572 {
            let packet = bytes[41] == 0x14 && bytes[42] == 0xEB;
            found = set(&[(22, packet), (18, is_damaged(&bytes[60..]))]);
        }
        whole &= *tag != 0x89 || size == 572;
        rest = &behind[size..];
    }
    found | set(&[(21, !whole || !rest.is_empty() || last != Some(0x89))])
}

/// A full census, or one of which a grouping has more or fewer blocks.
fn census_is_refused(piece: &[u8]) -> bool {
    let census = census_in(piece);
    let sum = |counts: &[u16]| counts.iter().map(|&count| u64::from(count)).sum::<u64>();
    let sums = [
        sum(&[census.named, census.unnamed]),
        sum(&census.udma),
        sum(&census.version),
    ];
    census.blocks == 0xFFFF || sums.iter().any(|&sum| sum != u64::from(census.blocks))
}

fn roll_is_refused(bytes: usize, rows: usize) -> bool {
    bytes % 512 != 0 || bytes > 64 * 512 || rows < bytes / 512
}

/// Whether the intake of a take or an INQUIRY is wrong, or its store.
fn intake_is_refused(call: &Call) -> bool {
    call.intake.have > 512 || call.pieces[0].len() != 512
}

/// What applies to the INQUIRY with the intake's block in the store's place.
fn to_its_block(call: &Call) -> Set {
    let mut pieces = call.pieces.clone();
    if call.intake.have != 512 {
        pieces[0].clear();
    }
    pieces.swap(0, 1);
    let asked = Call::new(INQUIRY, pieces).ports(call.ports, &call.pieces[5]);
    to(&asked, 0)
}

/// What applies to the gathering, and where nothing does to the roll: there is
/// none before the blocks are gathered.
fn to_intakes(call: &Call, sizes: &[usize]) -> Set {
    let haves = numbers_in(&call.pieces[0]);
    let complete = haves.iter().filter(|&&have| have == 512).count();
    let wrong = haves.iter().any(|&have| have > 512) || sizes[1] != 512 * haves.len();
    let mut blocks = call.pieces[1].chunks(512).zip(&haves);
    let damaged = blocks.any(|(store, &have)| have == 512 && is_damaged(store));
    let gathering = set(&[(1, wrong), (18, damaged), (8, sizes[2] < 512 * complete)]);
    if gathering != 0 {
        return gathering;
    }
    set(&[(1, roll_is_refused(512 * complete, sizes[3] / 2))])
}

/// The page of the call's ports and a block, in bytes.
fn page83_size(call: &Call, block: &[u8]) -> usize {
    let name = if carries_name(block) { 16 } else { 76 };
    name + [0, 8, 12, 20][usize::from(call.ports.chosen % 4)]
}

/// Whether an address is asked, and has another size than eight bytes.
fn address_is_refused(call: &Call, size: usize) -> bool {
    call.ports.chosen & 2 != 0 && size != 8
}

/// Whether a port is asked, and is neither the first nor the second.
fn port_is_refused(call: &Call) -> bool {
    call.ports.chosen & 1 != 0 && ![1, 2].contains(&call.ports.relative)
}

fn to_inquiry(call: &Call, sizes: &[usize]) -> Set {
    let wrong_block = sizes[1] != 0 && sizes[1] != 512;
    let wrong_piece = wrong_block || sizes[2] != 20 || sizes[3] != 28 || sizes[7] < 22;
    let wrong_size = wrong_piece || address_is_refused(call, sizes[5]);
    let command = &call.pieces[0];
    let opcode = command.first() == Some(&0x12);
    let before = set(&[
        (1, wrong_size),
        (18, is_damaged(&call.pieces[1])),
        (2, command.is_empty() || opcode && command.len() < 6),
        (3, !command.is_empty() && !opcode),
    ]);
    if before & 0b1100 != 0 {
        return before;
    }
    if call.pieces[2].get(5..7) == Some(&[0x14, 0xEB]) {
        return before | to_packet(call);
    }
    let (evpd, cmddt, page) = (command[1] & 1 != 0, command[1] & 2 != 0, command[2]);
    let size = match (evpd, page) {
        (false, _) => 36,
        (true, 0x00) => 8,
        (true, 0x80) => 24,
        (true, 0x83) => page83_size(call, &call.pieces[1]),
        (true, 0x89) => 572,
        _ => 0,
    };
    let served = [0x00, 0x80, 0x83, 0x89].contains(&page);
    let with_block = !evpd || page == 0x80 || page == 0x83;
    let naca = command[5] & 4 != 0;
    before
        | set(&[
            (4, naca || cmddt || !evpd && page != 0),
            (5, evpd && !served),
            (6, call.pieces[1].is_empty() && with_block),
            (19, evpd && page == 0x83 && port_is_refused(call)),
            (8, sizes[6] < size.min(allocation(command))),
        ])
}

fn allocation(command: &[u8]) -> usize {
    usize::from(command[3]) * 256 + usize::from(command[4])
}

fn to_packet(call: &Call) -> Set {
    let (command, reply) = (&call.pieces[0], &call.pieces[4]);
    let asked = (command[1] & 3, command[2]);
    let size = match asked {
        (1, 0x00) => 4 + list_size(reply).unwrap_or(0),
        (1, 0x89) => 572,
        _ => 0,
    };
    let short = call.pieces[6].len() < size.min(allocation(command));
    set(&[
        (7, asked == (1, 0x00) && list_size(reply).is_none()),
        (8, short),
    ])
}

/// The codes of a packet drive's page 00h with 89h, if it is usable.
fn list_size(reply: &[u8]) -> Option<usize> {
    let count = usize::from(*reply.get(3)?);
    let codes = reply.get(4..4 + count)?;
    let rises = (1..count).all(|at| codes[at - 1] < codes[at]);
    let total = count + usize::from(!codes.contains(&0x89));
    (reply[1] == 0 && rises && total < 256).then_some(total)
}

/// A reset waits for a reset alone, protocol 15 for nothing, and every other
/// order for whatever is pending.
fn has_no_place(record: &Record, protocol: u8) -> bool {
    match (record.state, protocol) {
        (0, _) | (_, 15) => false,
        (2, _) => true,
        (_, 0 | 1) => record.order.protocol <= 1,
        _ => true,
    }
}

/// Where a form has its flags, its control byte, features and count (their
/// lower bytes), and whether there are upper ones; no form is 0 bytes long.
struct Form {
    size: usize,
    flags: usize,
    control: usize,
    numbers: [usize; 2],
    upper: bool,
}

fn form_of(command: &[u8], later: bool) -> Form {
    let (size, flags, control, numbers) = match command.first() {
        Some(0xA1) => (12, 1, 11, [3, 4]),
        Some(0x85) => (16, 1, 15, [4, 6]),
        Some(0x7F) if later => (32, 10, 1, [21, 23]),
        _ => (0, 1, 0, [0, 0]),
    };
    Form {
        size,
        flags,
        control,
        numbers,
        upper: size > 12,
    }
}

fn to_submit(call: &Call, sizes: &[usize], later: bool) -> Set {
    let command = &call.pieces[0];
    let form = form_of(command, later);
    let protocol = command.get(form.flags).map_or(0, |byte| byte >> 1 & 0x0F);
    let wrong_block = later && sizes[2] != 0 && sizes[2] != 512;
    let before = set(&[
        (1, sizes[1] != 11 || sizes[3] < 22 || wrong_block),
        (18, later && is_damaged(&call.pieces[2])),
        (2, command.len() < form.size.max(1)),
        (3, form.size == 0 && !command.is_empty()),
        (10, has_no_place(&call.record, protocol)),
    ]);
    if before & 0b1100 != 0 {
        return before;
    }
    let naca = command[form.control] & 4 != 0;
    let unserved = [2, 7, 12, 13, 14].contains(&protocol);
    let wrong_action = form.size == 32 && command[7..10] != [0x18, 0x1F, 0xF0];
    let of_command = set(&[(4, naca), (9, unserved), (20, wrong_action)]);
    before | of_command | to_transfer(call, &form, protocol, later)
}

/// 11 to 14 and 6, of the protocols that they concern.
fn to_transfer(call: &Call, form: &Form, protocol: u8, later: bool) -> Set {
    let command = &call.pieces[0];
    let flags = command[form.flags + 1];
    let (t_length, from_drive) = (flags & 3, flags & 8 != 0);
    let wrong_direction = match protocol {
        3 | 8 | 9 => return set(&[(11, t_length != 0)]),
        4 | 10 => !from_drive,
        5 | 11 => from_drive,
        6 => false,
        _ => return 0,
    };
    let extended = form.upper && command[form.flags] & 1 != 0;
    let number = |at: usize| {
        let upper = if extended { command[at - 1] } else { 0 };
        u128::from(upper) * 256 + u128::from(command[at])
    };
    let of_sectors = later && flags & 0x14 == 0x14 && (1..=2).contains(&t_length);
    let unit = match flags & 4 {
        0 => 1,
        _ if of_sectors => sector_size(&call.pieces[2]),
        _ => 512,
    };
    let declared = u128::from(call.declared);
    let length = match t_length {
        0 => return set(&[(11, true), (12, wrong_direction)]),
        1 => unit * number(form.numbers[0]),
        2 => unit * number(form.numbers[1]),
        _ => declared,
    };
    set(&[
        (12, wrong_direction),
        (6, of_sectors && call.pieces[2].is_empty()),
        (13, length == 0),
        (14, length > declared),
    ])
}

/// The size of a logical sector (RULES 5), read here once more; of a block that
/// is no block it is one of 512.
fn sector_size(block: &[u8]) -> u128 {
    match block.get(213).map(|high| high & 0xD0) {
        Some(0x50) => {
            (234..238).rev().fold(0, |number, at| {
                number * 256 + u128::from(block.get(at).copied().unwrap_or(0))
            }) * 2
        }
        _ => 512,
    }
}
