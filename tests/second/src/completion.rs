//! Completion of an order (RULES 9).

use crate::order::{Order, Record};
use crate::sense::{stated, write_refusal, write_report, Report};
use crate::{fault, lent, order, refusal, sense};

/// The answer to a completion. `lost` is 1 where a reset ended and an older
/// order was lost by it, which has this protocol; else both are 0.
#[derive(Clone, Copy, Debug, PartialEq, Eq)]
pub struct Ended {
    pub number: u8,
    pub status: u8,
    pub lost: u8,
    pub lost_protocol: u8,
}

/// Completes the pending order, or the reset over it; the record is empty then.
pub fn complete(record: &mut Record, registers: &[u8], form: u8, sense: &mut [u8]) -> Ended {
    if !lent::registers_size_is_right(registers) || !lent::sense_size_is_right(form, sense) {
        return refuse(refusal::SIZE, form, sense);
    }
    // There is nothing to complete: 15 (RULES 3).
    if !record.is_pending() || fault::planted("complete-refuses-all") {
        return spoil_refusal(record, refuse(refusal::NOTHING_PENDING, form, sense));
    }
    let mut ended = end(record, registers, form_for(record, form), sense);
    tell_lost(record, &mut ended);
    empty(record);
    if fault::planted("form-changes-the-status") && form == sense::FIXED {
        ended.status = refusal::GOOD;
    }
    ended
}

/// The older order has no status of its own: only that it is lost is told, and
/// its protocol as the record has it (RULES 9).
fn tell_lost(record: &Record, ended: &mut Ended) {
    if record.holds_both() && !fault::planted("lost-not-told") {
        ended.lost = 1;
        ended.lost_protocol = record.older.protocol;
    }
    spoil_lost(record, ended);
    spoil_no_loss(record, ended);
}

/// For planted faults of what is told of the older order.
fn spoil_lost(record: &Record, ended: &mut Ended) {
    let both = record.holds_both();
    if fault::planted("lost-protocol-of-the-reset") && both {
        ended.lost_protocol = record.order.protocol;
    }
    if fault::planted("lost-protocol-of-four-bits") {
        ended.lost_protocol &= 0x0F;
    }
    if fault::planted("lost-protocol-without-lost") {
        ended.lost = 0;
    }
    if fault::planted("lost-told-by-the-protocol") {
        ended.lost = u8::from(ended.lost_protocol != 0);
    }
    if fault::planted("lost-told-in-the-state-number") && both {
        ended.lost = record.state as u8;
    }
    if fault::planted("lost-told-by-the-older-bytes") {
        ended.lost = u8::from(record.older != Order::default());
    }
    if fault::planted("lost-told-of-a-good-reset-alone") && ended.status != refusal::GOOD {
        (ended.lost, ended.lost_protocol) = (0, 0);
    }
}

/// For planted faults of a completion by which no order is lost.
fn spoil_no_loss(record: &Record, ended: &mut Ended) {
    if record.holds_both() {
        return;
    }
    if fault::planted("lost-told-of-every-order") {
        (ended.lost, ended.lost_protocol) = (1, record.order.protocol);
    }
    if fault::planted("lost-protocol-of-every-order") {
        ended.lost_protocol = record.order.protocol;
    }
    if fault::planted("lost-protocol-of-older-in-every-state") {
        ended.lost_protocol = record.older.protocol;
    }
    if fault::planted("lost-told-of-a-single-reset") && record.order.protocol < 2 {
        (ended.lost, ended.lost_protocol) = (1, record.order.protocol);
    }
}

/// For a planted fault: a refused completion tells of no loss.
fn spoil_refusal(record: &Record, mut refused: Ended) -> Ended {
    if fault::planted("lost-protocol-of-a-refusal") {
        refused.lost_protocol = record.older.protocol;
    }
    refused
}

/// Nothing is pending after a completion, of an order and of both (RULES 9).
fn empty(record: &mut Record) {
    let ended = *record;
    *record = Record::default();
    if !ended.holds_both() {
        if fault::planted("reset-older-left-by-a-single-end") {
            record.older = ended.older;
        }
        return;
    }
    if fault::planted("reset-leaves-the-order-pending") {
        *record = order::one(ended.older);
    }
    if fault::planted("reset-completed-after-the-order") {
        *record = order::one(ended.order);
    }
    if fault::planted("reset-older-left-by-completion") {
        record.older = ended.older;
    }
}

/// The form that this call states. One was stated with the command too, which
/// counts here only for planted faults.
fn form_for(record: &Record, form: u8) -> u8 {
    if fault::planted("form-kept-in-the-record") || fault::planted("form-of-the-last-order") {
        return order::kept_form(record);
    }
    stated(
        form,
        "form-not-asked-by-complete",
        "form-default-not-of-complete",
    )
}

/// An error of the drive is told whether or not the host asked for the
/// registers; without one they are told where it did, by CK_COND (RULES 9).
fn end(record: &Record, registers: &[u8], form: u8, sense: &mut [u8]) -> Ended {
    let order = record.front();
    let extend = order.extend != 0;
    let report = Report { extend, registers };
    if fault::planted("lost-order-given-a-status") && record.holds_both() {
        write_report([0x0B, 0x00, 0x00], report, form, sense);
        return accept(refusal::CHECK_CONDITION);
    }
    if has_error(registers) {
        write_report([0x0B, 0x00, 0x00], report, form, sense);
        return accept(refusal::CHECK_CONDITION);
    }
    if order.ck_cond != 0 {
        write_report([0x01, 0x00, 0x1D], report, form, sense);
        return accept(refusal::CHECK_CONDITION);
    }
    accept(refusal::GOOD)
}

/// The drive's status is the last of the lent registers (RULES 1); bits 0 and
/// 5 tell of an error (RULES 9).
fn has_error(registers: &[u8]) -> bool {
    let status = registers[10];
    status & 0x01 != 0 || status & 0x20 != 0
}

fn accept(status: u8) -> Ended {
    Ended {
        number: refusal::ACCEPTED,
        status,
        lost: 0,
        lost_protocol: 0,
    }
}

fn refuse(number: u8, form: u8, sense: &mut [u8]) -> Ended {
    write_refusal(number, form, sense);
    Ended {
        number,
        status: refusal::status(number),
        lost: 0,
        lost_protocol: 0,
    }
}
