//! Sense data in the form that the caller states (RULES 10).

use crate::{fault, refusal};

/// The numbers that state a form. Every other number states none, as 0 does,
/// and then the form is fixed.
pub const UNSTATED: u8 = 0;
pub const FIXED: u8 = 1;
pub const DESCRIPTOR: u8 = 2;

/// Key, ASC and ASCQ.
pub type Codes = [u8; 3];

/// What the drive left: the registers as they are lent (RULES 1), and whether
/// their upper bytes count.
#[derive(Clone, Copy)]
pub struct Report<'a> {
    pub extend: bool,
    pub registers: &'a [u8],
}

/// A refusal without a key has nothing to tell the host.
pub fn write_refusal(number: u8, form: u8, sense: &mut [u8]) {
    if let Some(codes) = refusal::key_asc_ascq(number) {
        if is_fixed(form) {
            put(&fixed(codes, None), sense);
        } else {
            put(&descriptor_head(codes, 0), sense);
        }
    }
}

/// Tells the host what the drive left.
pub fn write_report(codes: Codes, report: Report, form: u8, sense: &mut [u8]) {
    if fault::planted("complete-writes-nothing") {
        return;
    }
    if is_fixed(form) {
        put(&fixed(codes, Some(report)), sense);
    } else {
        put(&descriptor(codes, report), sense);
    }
}

/// Whether this number comes to the fixed form. And the planted faults of that.
fn is_fixed(form: u8) -> bool {
    let wrongly = (fault::planted("form-unstated-is-descriptor") && form == UNSTATED)
        || (fault::planted("form-of-another-number-is-descriptor") && form > DESCRIPTOR)
        || (fault::planted("form-descriptor-is-fixed") && form == DESCRIPTOR)
        || (fault::planted("form-by-its-lowest-bit") && form != DESCRIPTOR && form & 1 == 0)
        || (fault::planted("form-by-its-second-bit") && form != DESCRIPTOR && form & 2 == 2);
    (form != DESCRIPTOR) != wrongly
}

/// The form that a caller states, but for two planted faults: that an entry
/// does not ask for it, and that it has a default of its own.
pub fn stated(form: u8, not_asked: &str, own_default: &str) -> u8 {
    if fault::planted(not_asked) {
        return UNSTATED;
    }
    if fault::planted(own_default) && form == UNSTATED {
        return DESCRIPTOR;
    }
    form
}

/// The room behind these bytes stays.
fn put(bytes: &[u8], sense: &mut [u8]) {
    let mut bytes = bytes.to_vec();
    if bytes.len() == 18 && fault::planted("fixed-writes-8-bytes") {
        bytes.truncate(8);
    }
    if bytes.len() == 18 && fault::planted("fixed-writes-22-bytes") {
        bytes.resize(22, 0x00);
    }
    sense[..bytes.len()].copy_from_slice(&bytes);
}

/// The eight bytes that descriptors of so many bytes follow.
fn descriptor_head([key, asc, ascq]: Codes, behind: u8) -> [u8; 8] {
    [0x72, key, asc, ascq, 0x00, 0x00, 0x00, behind]
}

/// The head, then a descriptor of 14 bytes with EXTEND and the registers, in
/// the order in which they are lent.
fn descriptor(codes: Codes, report: Report) -> [u8; 22] {
    let mut bytes = [0; 22];
    bytes[..8].copy_from_slice(&descriptor_head(codes, 14));
    bytes[8..11].copy_from_slice(&[0x09, 0x0C, u8::from(report.extend)]);
    bytes[11..].copy_from_slice(report.registers);
    if !report.extend && !fault::planted("upper-bytes-without-extend") {
        bytes[12] = 0x00; // count high
        bytes[14] = 0x00; // LBA low high
        bytes[16] = 0x00; // LBA mid high
        bytes[18] = 0x00; // LBA high high
    }
    bytes
}

/// 18 bytes, of which those without a meaning here are zero.
fn fixed([key, asc, ascq]: Codes, report: Option<Report>) -> [u8; 18] {
    let mut bytes = [0; 18];
    bytes[0] = 0x70;
    bytes[2] = key;
    bytes[7] = 10; // how many bytes follow byte 7
    bytes[12] = asc;
    bytes[13] = ascq;
    if let Some(report) = report {
        put_registers(&mut bytes, report);
        spoil_registers(&mut bytes, report);
    }
    spoil(&mut bytes);
    bytes
}

/// There is place for the lower bytes alone; byte 8 says whether the upper
/// ones would have told more.
fn put_registers(bytes: &mut [u8; 18], report: Report) {
    let registers = report.registers;
    bytes[3] = registers[0]; // error
    bytes[4] = registers[10]; // status
    bytes[5] = registers[9]; // device
    bytes[6] = registers[2]; // count
    bytes[8] = if report.extend {
        0x80 | upper_flags(registers)
    } else {
        0x00
    };
    bytes[9] = registers[4]; // LBA low
    bytes[10] = registers[6]; // LBA mid
    bytes[11] = registers[8]; // LBA high
}

/// Bit 6 for the count, bit 5 for the three LBA registers.
fn upper_flags(registers: &[u8]) -> u8 {
    let count = registers[1] != 0;
    let lba = registers[3] != 0 || registers[5] != 0 || registers[7] != 0;
    u8::from(count) << 6 | u8::from(lba) << 5
}

/// Planted faults of where the codes stand, and of what stands beside them.
fn spoil(bytes: &mut [u8; 18]) {
    if fault::planted("fixed-key-in-byte-1") {
        bytes.swap(1, 2);
    }
    if fault::planted("fixed-codes-in-bytes-2-and-3") {
        (bytes[2], bytes[3]) = (bytes[12], bytes[13]);
        (bytes[12], bytes[13]) = (0x00, 0x00);
    }
    if fault::planted("fixed-codes-exchanged") {
        bytes.swap(12, 13);
    }
    if fault::planted("fixed-byte-7-zero") {
        bytes[7] = 0x00;
    }
    if fault::planted("fixed-bit-7-of-byte-0") {
        bytes[0] |= 0x80;
    }
    if fault::planted("form-changes-the-key") && bytes[2] == 0x01 {
        bytes[2] = 0x00;
    }
}

/// Planted faults of the registers.
fn spoil_registers(bytes: &mut [u8; 18], report: Report) {
    let registers = report.registers;
    let extend = u8::from(report.extend);
    if fault::planted("fixed-flags-without-extend") {
        bytes[8] = extend << 7 | upper_flags(registers);
    }
    if fault::planted("fixed-flags-exchanged") {
        bytes[8] = bytes[8] & 0x80 | (bytes[8] & 0x40) >> 1 | (bytes[8] & 0x20) << 1;
    }
    if fault::planted("fixed-flag-of-lba-low-alone") && registers[3] == 0 {
        bytes[8] &= !0x20;
    }
    if fault::planted("fixed-flag-not-of-lba-high") && (registers[3], registers[5]) == (0, 0) {
        bytes[8] &= !0x20;
    }
    if fault::planted("fixed-extend-in-bit-0") {
        bytes[8] = bytes[8] & 0x60 | extend;
    }
    if fault::planted("fixed-count-high") {
        bytes[6] = registers[1];
    }
    if fault::planted("fixed-lba-reversed") {
        bytes[9..12].reverse();
    }
    if fault::planted("fixed-lba-upper-bytes") {
        bytes[9..12].copy_from_slice(&[registers[3], registers[5], registers[7]]);
    }
    if fault::planted("fixed-error-and-status-exchanged") {
        bytes.swap(3, 4);
    }
}
