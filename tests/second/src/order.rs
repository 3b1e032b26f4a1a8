//! Pass-through orders (RULES 8).

use crate::fields::{is_later, read_command, Fields};
use crate::sense::{stated, write_refusal, write_report, Report};
use crate::{fault, identify, lent, refusal};
use std::sync::atomic::{AtomicBool, AtomicU8, Ordering};

/// The directions of an order.
pub const NO_DATA: u8 = 0;
pub const FROM_DRIVE: u8 = 1;
pub const TO_DRIVE: u8 = 2;

/// What the board is to do with the drive (RULES 8.3).
#[derive(Clone, Copy, Debug, Default, PartialEq, Eq, Hash)]
pub struct Order {
    pub length: u32,
    /// Of the 32-byte form alone.
    pub auxiliary: u32,
    pub features: u16,
    pub count: u16,
    pub lba_low: u16,
    pub lba_mid: u16,
    pub lba_high: u16,
    pub quiet_seconds: u16,
    pub sectors_per_block: u16,
    pub device: u8,
    pub command: u8,
    pub protocol: u8,
    pub ck_cond: u8,
    pub extend: u8,
    pub direction: u8,
}

/// Room for one order, which waits for its completion, and for a reset over it
/// (RULES 9). State 0 is nothing pending, 2 a reset with an older order under
/// it, any other state a pending order. The older order counts in state 2 alone.
#[derive(Clone, Copy, Debug, Default, PartialEq, Eq)]
pub struct Record {
    pub state: u32,
    pub order: Order,
    pub older: Order,
}

/// The states that the board itself leaves.
pub const ONE_ORDER: u32 = 1;
pub const RESET_OVER_ORDER: u32 = 2;

impl Record {
    pub fn is_pending(&self) -> bool {
        if fault::planted("reset-states-above-2-hold-nothing") {
            return self.state == ONE_ORDER || self.state == RESET_OVER_ORDER;
        }
        if fault::planted("reset-states-of-a-byte") {
            return self.state as u8 != 0;
        }
        self.state != 0
    }

    /// Whether it holds an order with a reset over it.
    pub fn holds_both(&self) -> bool {
        if fault::planted("reset-over-it-in-every-other-state") {
            return self.state >= RESET_OVER_ORDER;
        }
        if fault::planted("reset-over-it-by-half-the-state") {
            return self.state & 0xFFFF == RESET_OVER_ORDER;
        }
        self.state == RESET_OVER_ORDER
    }

    /// Whether a reset is pending: over an order, or as the only order.
    fn has_reset(&self) -> bool {
        if fault::planted("reset-taken-over-both") && self.holds_both() {
            return false;
        }
        if fault::planted("reset-taken-over-a-reset") {
            return self.holds_both();
        }
        if fault::planted("reset-found-by-its-protocol-alone") {
            return self.is_pending() && is_reset(self.order.protocol);
        }
        if fault::planted("reset-found-in-the-older-order") {
            return self.holds_both() || self.is_pending() && is_reset(self.older.protocol);
        }
        if fault::planted("reset-found-by-protocol-0-alone") {
            return self.holds_both() || self.is_pending() && self.order.protocol == 0;
        }
        if fault::planted("reset-found-by-four-bits") {
            return self.holds_both() || self.is_pending() && is_reset(self.order.protocol & 0x0F);
        }
        self.holds_both() || self.is_pending() && is_reset(self.order.protocol)
    }

    /// The order that a completion answers: where there are two the reset, with
    /// the CK_COND and EXTEND that the record has of it (RULES 9).
    pub fn front(&self) -> Order {
        let mut front = self.order;
        if self.holds_both() {
            spoil_front(&mut front, &self.older);
        }
        front
    }
}

/// For planted faults of what a completion of both answers.
fn spoil_front(front: &mut Order, older: &Order) {
    if fault::planted("reset-completed-after-the-order") {
        *front = *older;
    }
    if fault::planted("reset-with-the-older-ck-cond") {
        front.ck_cond = older.ck_cond;
    }
    if fault::planted("reset-with-the-older-extend") {
        front.extend = older.extend;
    }
    if fault::planted("reset-without-its-ck-cond") {
        front.ck_cond = 0;
    }
    if fault::planted("reset-without-its-extend") {
        front.extend = 0;
    }
}

/// Hard reset and software reset (RULES 8.4).
fn is_reset(protocol: u8) -> bool {
    protocol == 0 || protocol == 1
}

/// The answer to a pass-through command.
#[derive(Clone, Copy, Debug, PartialEq, Eq)]
pub struct Taken {
    pub number: u8,
    pub status: u8,
    pub order: Order,
}

/// Takes a pass-through command. The record changes only where an order is
/// accepted (RULES 9). In the first edition the block is not looked at.
#[allow(clippy::too_many_arguments)]
pub fn submit(
    record: &mut Record,
    command: &[u8],
    registers: &[u8],
    block: &[u8],
    declared: u32,
    edition: u8,
    form: u8,
    sense: &mut [u8],
) -> Taken {
    let later = is_later(edition);
    let lent = Lent {
        block,
        declared,
        later,
    };
    let asked = check_sizes(registers, form, sense)
        .and_then(|()| check_block(&lent, edition, command))
        .and_then(|()| spoil_checks(record))
        .and_then(|()| read_command(command, later))
        .and_then(check_command);
    let fields = match asked {
        Ok(fields) => fields,
        Err(number) => return refuse(number, form, sense),
    };
    if fields.protocol == 15 {
        spoil_by_response(record);
        return return_response(registers, form, sense);
    }
    if has_no_place(record, &fields) {
        return refuse(refusal::PENDING, form, sense);
    }
    match make_order(&fields, &lent) {
        Ok(order) if record.is_pending() => put_over(record, order),
        Ok(order) => fill(record, order, form),
        Err(number) => refuse(number, form, sense),
    }
}

/// What a length can hang on besides the command.
struct Lent<'a> {
    block: &'a [u8],
    declared: u32,
    later: bool,
}

/// 1, but for the size of the block.
fn check_sizes(registers: &[u8], form: u8, sense: &[u8]) -> Result<(), u8> {
    if lent::registers_size_is_right(registers) && lent::sense_size_is_right(form, sense) {
        Ok(())
    } else {
        Err(refusal::SIZE)
    }
}

/// The later edition's checks of the block: its size and, right behind, its
/// damage, both before the command is looked at (RULES 3).
fn check_block(lent: &Lent, edition: u8, command: &[u8]) -> Result<(), u8> {
    let wanted = fault::planted("edition-later-wants-a-block") && lent.later;
    let another =
        fault::planted("edition-of-another-number-refused") && !(1..=2).contains(&edition);
    if another || (wanted && lent.block.is_empty()) {
        return Err(refusal::SIZE);
    }
    let (asks_size, asks_damage) = if lent.later {
        (
            !fault::planted("edition-later-takes-any-size"),
            !fault::planted("edition-later-takes-damage"),
        )
    } else {
        (
            fault::planted("edition-first-asks-the-size"),
            fault::planted("edition-first-asks-damage"),
        )
    };
    if asks_size && !lent::block_size_is_right(lent.block) {
        return Err(refusal::SIZE);
    }
    let after = fault::planted("edition-damage-after-the-empty-command") && command.is_empty();
    if asks_damage && !after && identify::is_damaged(lent.block) {
        return Err(refusal::DAMAGED);
    }
    Ok(())
}

/// For planted faults: refusals out of their place.
fn spoil_checks(record: &Record) -> Result<(), u8> {
    if fault::planted("submit-refuses-all") {
        return Err(refusal::FIELD);
    }
    if fault::planted("busy-before-protocol") && record.is_pending() {
        return Err(refusal::PENDING);
    }
    Ok(())
}

/// For planted faults: protocol 15 leaves the record, whatever it holds.
fn spoil_by_response(record: &mut Record) {
    if fault::planted("record-cleared-by-protocol-15") {
        *record = Record::default();
    }
    if !record.holds_both() {
        return;
    }
    if fault::planted("reset-cleared-by-protocol-15") {
        *record = one(record.older);
    }
    if fault::planted("reset-alone-left-by-protocol-15") {
        *record = one(record.order);
    }
    if fault::planted("reset-older-cleared-by-protocol-15") {
        record.older = Order::default();
    }
}

/// Whether the record is taken for this command: a reset gets past an order,
/// but not past a reset, and nothing else gets past anything (row 10, RULES 3).
fn has_no_place(record: &Record, fields: &Fields) -> bool {
    let over_reset = record.has_reset() && fault::planted("reset-has-an-order-taken-over-it");
    if over_reset && !is_reset(fields.protocol) {
        return false;
    }
    if gets_past(fields) {
        record.has_reset()
    } else {
        record.is_pending()
    }
}

fn gets_past(fields: &Fields) -> bool {
    let unread = fields.t_length == 0 && !fields.t_dir;
    match fields.protocol {
        _ if fault::planted("reset-refused-over-an-order") => false,
        0 if fault::planted("reset-by-protocol-1-alone") => false,
        1 if fault::planted("reset-by-protocol-0-alone") => false,
        9 if fault::planted("reset-by-protocol-9-too") => true,
        0 | 1 if fault::planted("reset-over-an-order-read-further") => unread,
        protocol => is_reset(protocol),
    }
}

/// A record with one order (RULES 9).
pub fn one(order: Order) -> Record {
    Record {
        state: ONE_ORDER,
        order,
        ..Record::default()
    }
}

/// Puts a reset over the order that the record holds, which goes under it byte
/// for byte (RULES 9).
fn put_over(record: &mut Record, reset: Order) -> Taken {
    let before = *record;
    *record = Record {
        state: RESET_OVER_ORDER,
        order: reset,
        older: before.order,
    };
    spoil_over(record, &before);
    spoil_older(record, &before);
    if fault::planted("reset-answered-with-the-older-order") {
        return take(before.order);
    }
    take(reset)
}

/// For planted faults of the record that such a reset leaves.
fn spoil_over(record: &mut Record, before: &Record) {
    if fault::planted("reset-throws-the-order-away") {
        *record = one(record.order);
    }
    if fault::planted("reset-put-under-the-order") {
        std::mem::swap(&mut record.order, &mut record.older);
    }
    if fault::planted("reset-counted-in-the-state") {
        record.state = before.state.wrapping_add(1);
    }
    if fault::planted("reset-protocol-not-kept") {
        record.order.protocol = 0;
    }
    if fault::planted("reset-seconds-not-kept") {
        record.order.quiet_seconds = 0;
    }
    if fault::planted("reset-seconds-of-the-order") {
        record.order.quiet_seconds = before.order.quiet_seconds;
    }
    if fault::planted("reset-kept-with-the-older-ck-cond") {
        record.order.ck_cond = before.order.ck_cond;
    }
}

/// For planted faults of the order under such a reset.
fn spoil_older(record: &mut Record, before: &Record) {
    if fault::planted("reset-put-for-the-order") {
        record.older = record.order;
    }
    if fault::planted("reset-leaves-older-as-it-was") {
        record.older = before.older;
    }
    if fault::planted("reset-keeps-the-protocol-alone") {
        record.older = Order {
            protocol: before.order.protocol,
            ..Order::default()
        };
    }
    if fault::planted("auxiliary-lost-under-a-reset") {
        record.older.auxiliary = 0;
    }
    if fault::planted("reset-makes-the-order-tidy") {
        record.older.ck_cond = u8::from(before.order.ck_cond != 0);
        record.older.extend = u8::from(before.order.extend != 0);
    }
}

/// Puts an accepted order into the record.
fn fill(record: &mut Record, order: Order, form: u8) -> Taken {
    if fault::planted("first-order-only") && is_a_later_one() {
        *record = one(Order::default());
        return take(Order::default());
    }
    let before = *record;
    if !fault::planted("submit-writes-nothing") {
        *record = one(order);
    }
    if fault::planted("auxiliary-not-in-the-record") {
        record.order.auxiliary = 0;
    }
    if fault::planted("reset-older-left-by-an-order") {
        record.older = before.older;
    }
    if fault::planted("reset-older-filled-by-an-order") {
        record.older = order;
    }
    keep_form(record, form);
    take(order)
}

/// For planted faults: what an order's completion is to tell is not known yet,
/// so its form is nobody's to keep (RULES 9).
fn keep_form(record: &mut Record, form: u8) {
    if fault::planted("form-kept-in-the-record") {
        record.state |= u32::from(form) << 8;
    }
    if fault::planted("form-of-the-last-order") {
        LAST_FORM.store(form, Ordering::Relaxed);
    }
}

/// The form that such a fault completes an order in.
pub fn kept_form(record: &Record) -> u8 {
    if fault::planted("form-of-the-last-order") {
        return LAST_FORM.load(Ordering::Relaxed);
    }
    record.state.to_be_bytes()[2]
}

static LAST_FORM: AtomicU8 = AtomicU8::new(0);

/// Whether an order was taken before, for a planted fault.
fn is_a_later_one() -> bool {
    static TAKEN: AtomicBool = AtomicBool::new(false);
    TAKEN.swap(true, Ordering::Relaxed)
}

/// Its status is for the completion to tell (RULES 2).
fn take(order: Order) -> Taken {
    Taken {
        number: refusal::ACCEPTED,
        status: refusal::NO_STATUS,
        order,
    }
}

/// A refusal has an order of zeros (RULES 2).
fn refuse(number: u8, form: u8, sense: &mut [u8]) -> Taken {
    let form = stated(
        form,
        "form-not-asked-by-submit",
        "form-default-not-of-submit",
    );
    write_refusal(number, form, sense);
    Taken {
        number,
        status: refusal::status(number),
        order: Order::default(),
    }
}

/// Protocol 15 only tells the registers that were lent with the command, and
/// asks nothing of their error bits or of the record (RULES 9).
fn return_response(registers: &[u8], form: u8, sense: &mut [u8]) -> Taken {
    let report = Report {
        extend: false,
        registers,
    };
    let form = stated(
        form,
        "form-not-asked-by-protocol-15",
        "form-default-not-of-protocol-15",
    );
    write_report([0x01, 0x00, 0x1D], report, form, sense);
    Taken {
        number: refusal::ACCEPTED,
        status: refusal::CHECK_CONDITION,
        order: Order::default(),
    }
}

/// The checks 4, 20 and 9, which come before that of the record (RULES 8.4).
fn check_command(fields: Fields) -> Result<Fields, u8> {
    if fault::planted("long-20-before-4") && fields.wrong_action {
        return Err(refusal::SERVICE_ACTION);
    }
    if fields.naca {
        return Err(refusal::FIELD);
    }
    let unserved = [2, 7, 12, 13, 14].contains(&fields.protocol);
    if fields.wrong_action && !(fault::planted("long-20-after-9") && unserved) {
        return Err(refusal::SERVICE_ACTION);
    }
    if unserved {
        return Err(refusal::PROTOCOL);
    }
    Ok(fields)
}

/// The order of a protocol that check 9 let through and that is not 15.
fn make_order(fields: &Fields, lent: &Lent) -> Result<Order, u8> {
    match fields.protocol {
        0 | 1 => Ok(reset_order(fields)),
        3 | 8 | 9 => non_data_order(fields, lent),
        _ => data_order(fields, lent),
    }
}

/// A reset has no registers to hand on: of the command only PROTOCOL and
/// OFF_LINE count (RULES 8.3).
fn reset_order(fields: &Fields) -> Order {
    Order {
        auxiliary: auxiliary_of_a_reset(fields),
        protocol: fields.protocol,
        quiet_seconds: quiet_seconds(fields.off_line),
        sectors_per_block: 1,
        direction: NO_DATA,
        ..Order::default()
    }
}

fn auxiliary_of_a_reset(fields: &Fields) -> u32 {
    if fault::planted("auxiliary-of-resets") {
        fields.auxiliary
    } else {
        0
    }
}

/// Protocols 3, 8 and 9 move no data, so T_DIR says nothing (RULES 8.4).
fn non_data_order(fields: &Fields, lent: &Lent) -> Result<Order, u8> {
    if fields.t_length != 0 {
        return Err(refusal::T_LENGTH);
    }
    if fault::planted("sector-6-without-data") && fields.t_type && lent.has_none() {
        return Err(refusal::NO_BLOCK);
    }
    Ok(full_order(fields, NO_DATA, 0))
}

/// Protocols 4 and 10 bring data, 5 and 11 send it, 6 does as T_DIR says
/// (RULES 8.4). 6 stands between the direction and the length, which hangs on
/// the block.
fn data_order(fields: &Fields, lent: &Lent) -> Result<Order, u8> {
    let no_block = lacks_block(fields, lent);
    if fault::planted("sector-6-before-11") && no_block {
        return Err(refusal::NO_BLOCK);
    }
    if fields.t_length == 0 {
        return Err(refusal::T_LENGTH);
    }
    let t_dir_fits = match fields.protocol {
        4 | 10 => fields.t_dir,
        5 | 11 => !fields.t_dir,
        _ => true,
    };
    if fault::planted("sector-6-before-12") && no_block {
        return Err(refusal::NO_BLOCK);
    }
    if !t_dir_fits {
        return Err(refusal::T_DIR);
    }
    if fault::planted("sector-6-after-13") && number_of(fields) == Some(0) {
        return Err(refusal::LENGTH_ZERO);
    }
    if no_block {
        return Err(refusal::NO_BLOCK);
    }
    let length = checked_length(length_in_bytes(fields, lent), lent.declared)?;
    let from_drive = if fault::planted("direction-from-opcode") {
        !(0x30..=0x3F).contains(&fields.command)
    } else {
        fields.t_dir
    };
    let direction = if from_drive { FROM_DRIVE } else { TO_DRIVE };
    Ok(full_order(fields, direction, length))
}

/// 13 and 14: the length as it is, of however many bits, against the declared
/// one, which has 32; so the order's has no more (RULES 8.4).
fn checked_length(length: u64, declared: u32) -> Result<u32, u8> {
    if length == 0 {
        return Err(refusal::LENGTH_ZERO);
    }
    let fits = u32::try_from(length)
        .ok()
        .filter(|&length| length <= declared);
    fits.ok_or(refusal::ABOVE_DECLARED)
}

impl Lent<'_> {
    /// Whether it is the edition that is lent a block, and it is lent none.
    fn has_none(&self) -> bool {
        let first = fault::planted("sector-6-in-the-first-edition");
        (self.later || first) && self.block.is_empty()
    }
}

/// Whether sectors are to be counted of a drive that gave no block: 6
/// (RULES 8.4).
fn lacks_block(fields: &Fields, lent: &Lent) -> bool {
    let counts = number_of(fields).is_some();
    let (t_type, of_blocks) = match () {
        _ if fault::planted("sector-512-without-a-block") => return false,
        _ if fault::planted("sector-6-of-byte-counts") => (fields.t_type, counts),
        _ if fault::planted("sector-6-of-the-declared-length") => {
            (fields.t_type, fields.byte_block && fields.t_length != 0)
        }
        _ if fault::planted("sector-6-of-every-block-count") => (true, fields.byte_block && counts),
        _ => (fields.t_type, fields.byte_block && counts),
    };
    t_type && of_blocks && lent.has_none()
}

/// T_TYPE says something of counts of blocks alone (RULES 8.2).
fn counts_sectors(fields: &Fields, lent: &Lent) -> bool {
    let first = fault::planted("edition-first-reads-t-type") && !lent.block.is_empty();
    let t_type = match (fields.t_type, lent.later || first) {
        (_, false) => false,
        _ if fault::planted("sector-not-asked") => false,
        _ if fault::planted("sector-of-every-block-count") => !lent.block.is_empty(),
        _ if fault::planted("sector-where-t-type-is-zero") => {
            !fields.t_type && !lent.block.is_empty()
        }
        (t_type, _) => t_type,
    };
    let of_bytes = fault::planted("sector-of-byte-counts") && !lent.block.is_empty();
    t_type && (fields.byte_block || of_bytes) && number_of(fields).is_some()
}

/// The number of the field that T_LENGTH points at; None where the length is
/// no count (RULES 8.2).
fn number_of(fields: &Fields) -> Option<u16> {
    match fields.t_length {
        1 => Some(fields.features),
        2 => Some(fields.count),
        _ => None,
    }
}

/// T_LENGTH says where the length stands (RULES 8.2); it is not 0 here.
fn length_in_bytes(fields: &Fields, lent: &Lent) -> u64 {
    if fault::planted("invented-lengths") {
        return 512;
    }
    let number = match number_of(fields) {
        Some(0) if fault::planted("count-0-is-256") => 256,
        Some(number) => u64::from(number),
        None => return u64::from(lent.declared),
    };
    product(number, unit(fields, lent))
}

/// What a count counts, in bytes: bytes, blocks of 512, or the drive's logical
/// sectors (RULES 8.2).
fn unit(fields: &Fields, lent: &Lent) -> u64 {
    if counts_sectors(fields, lent) && lent.block.len() == 512 {
        identify::sector_size(lent.block)
    } else if fields.byte_block {
        512
    } else {
        1
    }
}

/// 65,535 sectors of twice 4,294,967,295 bytes need 49 bits.
fn product(number: u64, unit: u64) -> u64 {
    let exact = number * unit;
    if fault::planted("sector-product-of-32-bits") {
        return exact & 0xFFFF_FFFF;
    }
    if fault::planted("sector-product-of-48-bits") {
        return exact & 0xFFFF_FFFF_FFFF;
    }
    if fault::planted("sector-product-cut-at-32-bits") {
        return exact.min(0xFFFF_FFFF);
    }
    exact
}

/// 0, 2, 6 or 14 (RULES 8.3).
pub fn quiet_seconds(off_line: u8) -> u16 {
    (1 << (off_line + 1)) - 2
}

/// 1 to 128 (RULES 8.3).
pub fn sectors_per_block(multiple_count: u8) -> u16 {
    1 << multiple_count
}

/// An order that takes every field of the command.
fn full_order(fields: &Fields, direction: u8, length: u32) -> Order {
    Order {
        length,
        auxiliary: fields.auxiliary,
        features: fields.features,
        count: fields.count,
        lba_low: fields.lba_low,
        lba_mid: fields.lba_mid,
        lba_high: fields.lba_high,
        quiet_seconds: quiet_seconds(fields.off_line),
        sectors_per_block: sectors_per_block(fields.multiple_count),
        device: fields.device,
        command: fields.command,
        protocol: fields.protocol,
        ck_cond: u8::from(fields.ck_cond),
        extend: u8::from(fields.extend),
        direction,
    }
}
