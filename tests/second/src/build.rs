//! The command that makes an order (RULES 16). Whether there is one is not
//! judged by a list of rules: a command is built and read, and where what is
//! read is not the order, no command makes it.

use crate::order::{quiet_seconds, sectors_per_block, submit, FROM_DRIVE};
use crate::{fault, refusal, Order, Record, Taken};

/// The longest command that is built.
pub const MOST: usize = 16;

/// What came of an order: `size` bytes of the command, and zeros behind them.
#[derive(Clone, Copy, Debug, Default, PartialEq, Eq)]
pub struct Built {
    pub number: u8,
    pub size: u8,
    pub command: [u8; MOST],
}

/// Builds the command of an order; 23 where none of 12 or 16 bytes makes it,
/// whatever length is declared.
pub fn build(order: Order) -> Built {
    let order = taken_for(order);
    let found = if fault::planted("build-refuses-all") {
        None
    } else {
        command_of(&order)
    };
    let mut built = match found {
        Some(command) => whole(&command),
        None => Built {
            number: refusal::ORDER,
            ..Built::default()
        },
    };
    spoil_answer(&mut built);
    built
}

fn whole(command: &[u8]) -> Built {
    let mut built = Built {
        size: command.len() as u8,
        ..Built::default()
    };
    built.command[..command.len()].copy_from_slice(command);
    built
}

/// Where the length stands: T_LENGTH and BYTE_BLOCK, in the order in which it is
/// looked for (RULES 16.1). Without data it stands nowhere.
fn places() -> Vec<(u8, u8)> {
    let (nowhere, features, count, declared) = (0, 1, 2, 3);
    let (bytes, blocks) = (0, 1);
    let mut places = vec![
        (nowhere, bytes),
        (count, blocks),
        (count, bytes),
        (features, blocks),
        (features, bytes),
        (declared, bytes),
    ];
    spoil_places(&mut places);
    places
}

/// For planted faults: places in another order, or some of them.
fn spoil_places(places: &mut Vec<(u8, u8)>) {
    if fault::planted("build-bytes-before-blocks") {
        places.sort_by_key(|&(t_length, byte_block)| (t_length == 3, byte_block));
    }
    if fault::planted("build-blocks-before-bytes") {
        places.sort_by_key(|&(t_length, byte_block)| (t_length % 3 != 0) && byte_block == 0);
        places.sort_by_key(|&(t_length, _)| t_length == 3);
    }
    if fault::planted("build-features-before-count") {
        places.sort_by_key(|&(t_length, _)| t_length);
    }
    if fault::planted("build-declared-first") {
        places.sort_by_key(|&(t_length, _)| (t_length != 0, t_length != 3));
    }
    if fault::planted("build-declared-never") {
        places.retain(|&(t_length, _)| t_length != 3);
    }
    if fault::planted("build-features-never") {
        places.retain(|&(t_length, _)| t_length != 1);
    }
    if fault::planted("build-byte-block-with-declared") {
        places[5].1 = 1;
    }
}

/// The first command that makes the order. OFF_LINE and MULTIPLE_COUNT are those
/// that give the seconds and the sectors, if any do. No other commands are to be
/// tried: with EXTEND zero both forms are read alike, so the shorter will do, and
/// what else is read of a command stands in the order.
fn command_of(order: &Order) -> Option<Vec<u8>> {
    let off_line = (0..4).find(|&off_line| quiet_seconds(off_line) == order.quiet_seconds)?;
    let multiple_count =
        (0..8).find(|&multiple| sectors_per_block(multiple) == order.sectors_per_block)?;
    let first = multiple_count << 5 | (order.protocol & 0x0F) << 1;
    let t_dir = u8::from(order.direction == FROM_DRIVE);
    let second = off_line << 6 | (order.ck_cond & 1) << 5 | t_dir << 3;
    places()
        .into_iter()
        .map(|(t_length, byte_block)| in_form(order, first, second | byte_block << 2 | t_length))
        .find(|command| makes(command, order))
        .map(spoilt)
}

/// The 12-byte form where EXTEND is zero, else the 16-byte form (RULES 8.1).
fn in_form(order: &Order, first: u8, second: u8) -> Vec<u8> {
    let registers = [
        order.features,
        order.count,
        order.lba_low,
        order.lba_mid,
        order.lba_high,
    ];
    let long = order.extend != 0 || fault::planted("build-long-without-extend");
    let mut command = if long {
        vec![0x85, first | order.extend & 1, second]
    } else {
        vec![0xA1, first, second]
    };
    for register in registers {
        let [upper, lower] = register.to_be_bytes();
        if long {
            command.push(upper);
        }
        command.push(lower);
    }
    command.extend([order.device, order.command]);
    command.resize(if long { 16 } else { 12 }, 0x00);
    command
}

/// Whether the command is taken in the first edition, with nothing pending and
/// the order's length declared, and makes this order.
fn makes(command: &[u8], order: &Order) -> bool {
    let (mut record, mut sense) = (Record::default(), [0; 22]);
    let taken = submit(
        &mut record,
        command,
        &[0; 11],
        &[],
        order.length,
        1,
        0,
        &mut sense,
    );
    let taken_as_it_is = (taken.number, taken.status, taken.order)
        == (refusal::ACCEPTED, refusal::NO_STATUS, *order);
    taken_as_it_is || taken_by_fault(&taken, order)
}

/// The planted faults that take a command for one that makes the order.
fn taken_by_fault(taken: &Taken, order: &Order) -> bool {
    match taken.number {
        refusal::PROTOCOL => fault::planted("build-any-protocol"),
        refusal::LENGTH_ZERO => fault::planted("build-length-0-of-data") && order.length == 0,
        refusal::ACCEPTED => fault::planted("build-protocol-15") && order.protocol == 15,
        _ => false,
    }
}

/// The planted faults that take an order for another.
fn taken_for(mut order: Order) -> Order {
    spoil_numbers(&mut order);
    spoil_flags(&mut order);
    match order.protocol {
        0 | 1 => spoil_reset(&mut order),
        3 | 8 | 9 => spoil_without_data(&mut order),
        _ => {}
    }
    order
}

fn spoil_numbers(order: &mut Order) {
    if fault::planted("build-seconds-rounded") {
        let at_most = |seconds: &u16| *seconds <= order.quiet_seconds;
        order.quiet_seconds = [14, 6, 2, 0].into_iter().find(at_most).unwrap_or(0);
    }
    if fault::planted("build-sectors-rounded") {
        let at_most = |sectors: &u16| *sectors <= order.sectors_per_block;
        order.sectors_per_block = [128, 64, 32, 16, 8, 4, 2]
            .into_iter()
            .find(at_most)
            .unwrap_or(1);
    }
    if fault::planted("build-auxiliary-number") {
        order.auxiliary = 0;
    }
    if fault::planted("build-protocol-of-four-bits") {
        order.protocol &= 0x0F;
    }
}

fn spoil_flags(order: &mut Order) {
    if fault::planted("build-ck-cond-dropped") {
        order.ck_cond = 0;
    }
    if fault::planted("build-ck-cond-of-any-number") {
        order.ck_cond = order.ck_cond.min(1);
    }
    if fault::planted("build-extend-of-any-number") {
        order.extend = order.extend.min(1);
    }
    if fault::planted("build-upper-bytes-dropped") && order.extend == 0 {
        registers_of(order)
            .into_iter()
            .for_each(|register| *register &= 0xFF);
    }
    if fault::planted("build-direction-of-the-protocol") && order.direction != 0 {
        order.direction = match order.protocol {
            4 | 10 => 1,
            5 | 11 => 2,
            _ => order.direction,
        };
    }
}

fn registers_of(order: &mut Order) -> [&mut u16; 5] {
    [
        &mut order.features,
        &mut order.count,
        &mut order.lba_low,
        &mut order.lba_mid,
        &mut order.lba_high,
    ]
}

fn spoil_reset(order: &mut Order) {
    if fault::planted("build-reset-with-registers") {
        registers_of(order)
            .into_iter()
            .for_each(|register| *register = 0);
    }
    if fault::planted("build-reset-with-device-and-command") {
        (order.device, order.command) = (0, 0);
    }
    if fault::planted("build-reset-with-flags") {
        (order.ck_cond, order.extend) = (0, 0);
    }
    if fault::planted("build-reset-with-data") {
        (order.length, order.direction) = (0, 0);
    }
    if fault::planted("build-reset-of-any-sectors") {
        order.sectors_per_block = 1;
    }
    if fault::planted("build-reset-without-seconds") {
        order.quiet_seconds = 0;
    }
}

fn spoil_without_data(order: &mut Order) {
    if fault::planted("build-length-without-data") {
        order.length = 0;
    }
    if fault::planted("build-direction-without-data") {
        order.direction = 0;
    }
}

/// The planted faults of the bytes.
fn spoilt(mut command: Vec<u8>) -> Vec<u8> {
    let last = command.len() - 1;
    if fault::planted("build-t-dir-zero-from-drive") {
        command[2] &= !0x08;
    }
    if fault::planted("build-t-dir-without-data") && command[2] & 0x03 == 0 {
        command[2] |= 0x08;
    }
    if fault::planted("build-byte-block-lost") {
        command[2] &= !0x04;
    }
    if fault::planted("build-t-type") {
        command[2] |= 0x10;
    }
    if fault::planted("build-extend-lost") {
        command[1] &= 0xFE;
    }
    if fault::planted("build-control-byte") {
        command[last] = 0xC0;
    }
    if fault::planted("build-device-and-command-exchanged") {
        let device = if last == 15 { 13 } else { 8 };
        command.swap(device, device + 1);
    }
    if fault::planted("build-low-byte-first") && last == 15 {
        command[3..13].chunks_mut(2).for_each(|pair| pair.reverse());
    }
    if fault::planted("build-features-and-count-exchanged") {
        let wide = if last == 15 { 2 } else { 1 };
        command[3..3 + 2 * wide].rotate_left(wide);
    }
    command
}

/// The planted faults of what comes back besides.
fn spoil_answer(built: &mut Built) {
    if built.number == refusal::ACCEPTED {
        if fault::planted("build-size-of-the-room") {
            built.size = MOST as u8;
        }
        if fault::planted("build-bytes-behind") && built.size == 12 {
            built.command[12..].fill(0xFF);
        }
        return;
    }
    if fault::planted("build-refusal-with-a-size") {
        built.size = 12;
    }
    if fault::planted("build-refusal-with-an-opcode") {
        built.command[0] = 0xA1;
    }
    if fault::planted("build-refused-as-a-field") {
        built.number = refusal::FIELD;
    }
}
