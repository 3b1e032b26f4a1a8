//! The fields of a pass-through command in its three forms (RULES 8.1).

use crate::{fault, refusal};

/// The edition in which the 32-byte form is served and T_TYPE is read. Every
/// other number names the first, 0 too.
pub const LATER: u8 = 2;

pub fn is_later(edition: u8) -> bool {
    match edition {
        0 if fault::planted("edition-unstated-is-later") => true,
        3.. if fault::planted("edition-of-another-number-is-later") => true,
        _ if fault::planted("edition-by-its-second-bit") => edition & 0x02 != 0,
        _ if fault::planted("edition-of-seven-bits") => edition & 0x7F == LATER,
        _ if fault::planted("edition-later-not-served") => false,
        _ => edition == LATER,
    }
}

/// What a command says, whatever its form.
#[derive(Default)]
pub struct Fields {
    pub multiple_count: u8,
    pub protocol: u8,
    pub extend: bool,
    pub off_line: u8,
    pub ck_cond: bool,
    pub t_type: bool,
    pub t_dir: bool,
    pub byte_block: bool,
    pub t_length: u8,
    pub features: u16,
    pub count: u16,
    pub lba_low: u16,
    pub lba_mid: u16,
    pub lba_high: u16,
    pub device: u8,
    pub command: u8,
    pub auxiliary: u32,
    pub naca: bool,
    /// Of the 32-byte form: that it is no ATA PASS-THROUGH (32).
    pub wrong_action: bool,
}

/// The opcode says how many bytes the command has; so 3 comes before the 2 of
/// a command that is too short (RULES 3). Bytes behind them are not read.
pub fn read_command(command: &[u8], later: bool) -> Result<Fields, u8> {
    if command.is_empty() {
        return Err(refusal::SHORT);
    }
    let (size, read): (usize, fn(&[u8]) -> Fields) = match command[0] {
        0xA1 => (12, read_12),
        0x85 => (16, read_16),
        0x7F if later || fault::planted("edition-first-takes-the-32-byte-form") => {
            (long_size(), read_32)
        }
        _ => return Err(refusal::OPCODE),
    };
    if fault::planted("long-20-before-2") && command[0] == 0x7F && has_wrong_action(command) {
        return Err(refusal::SERVICE_ACTION);
    }
    if command.len() < size {
        return Err(refusal::SHORT);
    }
    if fault::planted("long-of-32-bytes-alone") && size == 32 && command.len() > size {
        return Err(refusal::SHORT);
    }
    Ok(read(command))
}

/// Bytes 28 to 31 are the last that the form has.
fn long_size() -> usize {
    if fault::planted("long-of-26-bytes") {
        26
    } else {
        32
    }
}

/// The two bytes of flags, which all forms share but for EXTEND (RULES 8.1).
/// All else is left zero.
fn read_flags(first: u8, second: u8) -> Fields {
    Fields {
        multiple_count: first >> 5,
        protocol: (first >> 1) & 0x0F,
        off_line: second >> 6,
        ck_cond: second & 0x20 != 0,
        t_type: second & 0x10 != 0,
        t_dir: second & 0x08 != 0,
        byte_block: second & 0x04 != 0,
        t_length: second & 0x03,
        ..Fields::default()
    }
}

/// The 12-byte form has no upper register bytes (RULES 8.1; table 92 of draft
/// T10/06-291r2).
fn read_12(command: &[u8]) -> Fields {
    Fields {
        features: register(0, command[3]),
        count: register(0, command[4]),
        lba_low: register(0, command[5]),
        lba_mid: register(0, command[6]),
        lba_high: register(0, command[7]),
        device: command[8],
        command: command[9],
        naca: is_naca(command[11]),
        auxiliary: auxiliary_of_another(command),
        ..read_flags(command[1], command[2])
    }
}

/// The 16-byte form's upper register bytes count with EXTEND alone (RULES 8.1;
/// table 96 of that draft).
fn read_16(command: &[u8]) -> Fields {
    let extend = command[1] & 0x01 != 0;
    let upper = |at: usize| if extend { command[at] } else { 0 };
    Fields {
        extend,
        features: register(upper(3), command[4]),
        count: register(upper(5), command[6]),
        lba_low: register(upper(7), command[8]),
        lba_mid: register(upper(9), command[10]),
        lba_high: register(upper(11), command[12]),
        device: command[13],
        command: command[14],
        naca: is_naca(command[15]),
        auxiliary: auxiliary_of_another(command),
        ..read_flags(command[1], command[2])
    }
}

/// The 32-byte form has the LBA as one number of six bytes, and an auxiliary
/// number that EXTEND does not concern (RULES 8.1).
fn read_32(command: &[u8]) -> Fields {
    let extend = command[10] & 0x01 != 0 || fault::planted("long-extend-always");
    let kept = extend || fault::planted("long-upper-bytes-without-extend");
    let upper = |at: usize| if kept { command[at] } else { 0 };
    let mut fields = Fields {
        extend,
        features: register(upper(20), command[21]),
        count: register(upper(22), command[23]),
        lba_low: register(upper(16), command[19]),
        lba_mid: register(upper(15), command[18]),
        lba_high: register(upper(14), command[17]),
        device: command[24],
        command: command[25],
        auxiliary: u32::from_be_bytes(bytes_4(command, 28)),
        naca: is_naca(command[1]),
        wrong_action: has_wrong_action(command),
        ..read_flags(command[10], command[11])
    };
    spoil_lba(&mut fields, command);
    spoil_long(&mut fields, command);
    fields
}

/// Byte 7 counts the bytes behind it, and bytes 8 and 9 are the service action
/// of ATA PASS-THROUGH (32).
fn has_wrong_action(command: &[u8]) -> bool {
    let is_not = |at: usize, wanted: u8| command.get(at) != Some(&wanted);
    if fault::planted("long-service-action-turned") {
        return is_not(7, 0x18) || is_not(8, 0xF0) || is_not(9, 0x1F);
    }
    (is_not(7, 0x18) && !fault::planted("long-byte-7-not-asked"))
        || (is_not(8, 0x1F) && !fault::planted("long-byte-8-not-asked"))
        || (is_not(9, 0xF0) && !fault::planted("long-byte-9-not-asked"))
}

fn bytes_4(command: &[u8], at: usize) -> [u8; 4] {
    std::array::from_fn(|more| command.get(at + more).copied().unwrap_or(0))
}

/// Other forms have no auxiliary number, whatever is lent behind them.
fn auxiliary_of_another(command: &[u8]) -> u32 {
    if fault::planted("auxiliary-of-every-form") {
        return u32::from_be_bytes(bytes_4(command, 28));
    }
    0
}

/// For planted faults of the LBA.
fn spoil_lba(fields: &mut Fields, command: &[u8]) {
    let upper = |at: usize| if fields.extend { command[at] } else { 0 };
    let (low, mid, high) = if fault::planted("long-lba-by-pairs") {
        ((14, 15), (16, 17), (18, 19))
    } else if fault::planted("long-lba-by-pairs-high-first") {
        ((18, 19), (16, 17), (14, 15))
    } else if fault::planted("long-lba-low-byte-first") {
        ((17, 14), (18, 15), (19, 16))
    } else if fault::planted("long-lba-halves-exchanged") {
        ((19, 16), (18, 15), (17, 14))
    } else if fault::planted("long-lba-low-and-high-exchanged") {
        ((14, 17), (15, 18), (16, 19))
    } else {
        return;
    };
    let register_at = |(first, second): (usize, usize)| register(upper(first), command[second]);
    let numbers = (register_at(low), register_at(mid), register_at(high));
    (fields.lba_low, fields.lba_mid, fields.lba_high) = numbers;
}

/// For planted faults of the other fields.
fn spoil_long(fields: &mut Fields, command: &[u8]) {
    if fault::planted("long-control-in-the-last-byte") {
        fields.naca = is_naca(command[31]);
    }
    if fault::planted("long-flags-in-bytes-1-and-2") {
        let flags = read_flags(command[1], command[2]);
        (fields.protocol, fields.t_length) = (flags.protocol, flags.t_length);
        (fields.t_dir, fields.byte_block) = (flags.t_dir, flags.byte_block);
    }
    if fault::planted("long-features-and-count-exchanged") {
        std::mem::swap(&mut fields.features, &mut fields.count);
    }
    if fault::planted("long-device-and-command-exchanged") {
        std::mem::swap(&mut fields.device, &mut fields.command);
    }
    if fault::planted("auxiliary-lost") {
        fields.auxiliary = 0;
    }
    if fault::planted("auxiliary-low-byte-first") {
        fields.auxiliary = fields.auxiliary.swap_bytes();
    }
    if fault::planted("auxiliary-of-bytes-24-to-27") {
        fields.auxiliary = u32::from_be_bytes(bytes_4(command, 24));
    }
    if fault::planted("auxiliary-of-16-bits") {
        fields.auxiliary &= 0xFFFF;
    }
    if fault::planted("auxiliary-with-extend-alone") && !fields.extend {
        fields.auxiliary = 0;
    }
}

fn register(upper: u8, lower: u8) -> u16 {
    u16::from_be_bytes([upper, lower])
}

fn is_naca(control: u8) -> bool {
    control & 0x04 != 0
}
