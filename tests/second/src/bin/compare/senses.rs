//! Inputs of INQUIRY, submit and complete by the form of their sense data.

use crate::board::Board;
use crate::call::{Call, Stated, INQUIRY, SUBMIT};
use crate::lent::{self, odd_record, packet, room};
use crate::numbers::Numbers;
use crate::{inquiries, orders, random};
use second::sense::{DESCRIPTOR, FIXED, UNSTATED};

/// The forms, and numbers that state none: next to them, and with their bits.
const FORMS: [u8; 10] = [
    UNSTATED, FIXED, DESCRIPTOR, 3, 4, 0x10, 0x80, 0x81, 0x82, 0xFF,
];

/// Sizes of sense room: too small, though 8 or 18 bytes would fit, and enough.
const ROOMS: [usize; 8] = [8, 17, 18, 21, 22, 23, 26, 64];

/// Any form: each of the three as often as all other numbers together.
pub fn any(numbers: &mut Numbers) -> u8 {
    match numbers.below(8) {
        0 => numbers.byte(),
        1 => numbers.pick(&[3, 0x81, 0xFF]),
        _ => numbers.pick(&[UNSTATED, FIXED, DESCRIPTOR]),
    }
}

/// Every refusal, with a key and without, in every form.
pub fn refusals(board: &mut Board) {
    for form in FORMS {
        for command in orders::refused_commands() {
            for state in [0, 1, 2] {
                let call = lent::submit(&command, 511).record(odd_record(state, 0, 0));
                board.call(&call.form(form));
            }
        }
        for command in inquiries::commands() {
            let call = lent::inquiry(&command).form(form);
            board.call(&call.clone().piece(1, Vec::new()));
            board.call(&call.clone().piece(1, lent::damaged_block()));
            board.call(&call.clone().piece(6, room(7)));
            board.call(&packet(call.clone(), &[5, 0, 9, 2, 0x80, 0x80]));
            board.call(&lent::from_intake(call.clone(), 511));
            board.call(&lent::from_intake(call, 512));
        }
        for state in [0, 1, 2] {
            let call = lent::complete(odd_record(state, 1, 1), 0x50).form(form);
            board.call(&call.clone().piece(0, vec![0x50; 10]));
            board.call(&call);
        }
    }
}

/// All 256 numbers, by sizes of the sense room, of a call of each kind that
/// writes sense data or could.
pub fn numbers(board: &mut Board) {
    for form in 0..=0xFF {
        for size in ROOMS {
            let refused = lent::inquiry(&[0x12, 1, 0xB0, 0, 0xFF, 0]);
            board.call(&refused.piece(7, room(size)).form(form));
            for command in [vec![], report(), orders::command(true, 7, 0x20, (0, 0), 0)] {
                let call = lent::submit(&command, 0).piece(3, room(size));
                board.call(&call.form(form));
            }
            for status in [0x50, 0x51] {
                let call = lent::complete(odd_record(1, 1, 1), status).piece(1, room(size));
                board.call(&call.form(form));
            }
        }
    }
}

/// Protocol 15 with EXTEND, which it does not read.
fn report() -> Vec<u8> {
    orders::command(true, 0x1F, 0x00, (0, 0), 0)
}

/// Completions and protocol 15 with registers that tell every place from every
/// other: each byte alone, and each but that one, of zero upper bytes and not.
pub fn registers(board: &mut Board) {
    let mut all = vec![lent::REGISTERS, [0x00; 11], [0xFF; 11]];
    for at in 0..11 {
        for value in [0x01, 0x20, 0x40, 0x80, 0xFF] {
            let (mut alone, mut other) = ([0; 11], lent::REGISTERS);
            alone[at] = value;
            other[at] = value;
            all.extend([alone, other]);
        }
        let mut but_one = lent::REGISTERS;
        but_one[at] = 0;
        all.push(but_one);
    }
    for zeros in 0..16 {
        let mut some = lent::REGISTERS;
        for upper in 0..4 {
            some[1 + 2 * upper] *= zeros >> upper & 1;
        }
        all.push(some);
    }
    for registers in all {
        for form in FORMS {
            report_all(board, &registers, form);
        }
    }
}

/// These registers reported with and without EXTEND, CK_COND and an error.
fn report_all(board: &mut Board, registers: &[u8; 11], form: u8) {
    for (ck_cond, extend) in [(0, 0), (0, 1), (1, 0), (1, 1), (7, 9)] {
        for error in [0x00, 0x01, 0x20] {
            let mut left = registers.to_vec();
            left[10] = left[10] & 0xDE | error;
            let call = lent::complete(odd_record(1, ck_cond, extend), 0x00);
            board.call(&call.piece(0, left).form(form));
        }
    }
    let call = lent::submit(&report(), 0).piece(1, registers.to_vec());
    board.call(&call.clone().form(form));
    board.call(&call.record(odd_record(1, 1, 1)).form(form));
}

/// Each form that an order is taken in, by each that it is completed in; the
/// board keeps the record between.
pub fn orders(board: &mut Board) {
    let command = orders::command(true, 0x07, 0x20, (0, 0), 0);
    for taken in FORMS {
        for ended in FORMS {
            let said = board.call(&lent::submit(&command, 0).form(taken));
            let mut call = lent::complete(said.record, 0x50).form(ended);
            call.kept = true;
            board.call(&call);
        }
    }
}

/// Random calls, each made in the descriptor form and in the fixed form, whether
/// stated or not: whether what comes back and all that is lent but for the sense
/// room are the same, and both sense rooms tell the same.
pub fn both(board: &mut Board, seed: u64, real: &[Vec<u8>]) -> bool {
    let mut numbers = Numbers::new(seed);
    let mut told = 0;
    for _ in 0..30_000 {
        let call = a_call(&mut numbers, real);
        let last = call.pieces.len() - 1;
        let form = numbers.pick(&[UNSTATED, FIXED, 3, 0xFF]);
        let (fixed, its_sense) = left(board, &call, form);
        let (descriptor, sense) = left(board, &call, DESCRIPTOR);
        let lent = &call.pieces[last];
        let untouched = its_sense == *lent && sense == *lent;
        if fixed != descriptor || !untouched && !tell_the_same(&its_sense, &sense, lent) {
            return false;
        }
        told += u32::from(!untouched);
    }
    told > 5_000
}

/// A call that leaves much or little in the upper bytes of the registers.
fn a_call(numbers: &mut Numbers, real: &[Vec<u8>]) -> Call {
    let mut call = match numbers.below(3) {
        0 => random::inquiry(numbers, real),
        1 => random::submit(numbers, real),
        _ => random::complete(numbers),
    };
    if call.function == SUBMIT && numbers.once_in(2) {
        let at = if call.pieces[0][0] == 0x7F { 10 } else { 1 };
        call.pieces[0][at] |= 0x1E; // protocol 15
    }
    let last = call.pieces.len() - 1;
    let registers = if call.function == SUBMIT { 1 } else { 0 };
    for upper in [1, 3, 5, 7] {
        if call.function != INQUIRY && numbers.once_in(2) {
            call.pieces[registers][upper] = 0;
        }
    }
    let size = 22 + numbers.below(12);
    call.pieces[last] = numbers.bytes(size);
    call
}

/// All that the second program leaves of a call in this form: what is before
/// the sense room, and that. The board is asked the same.
fn left(board: &mut Board, call: &Call, form: u8) -> (Vec<u8>, Vec<u8>) {
    let mut rest = Vec::new();
    let edition = call.edition.unwrap_or(0);
    call.answer(Stated { form, edition }, &mut rest);
    board.call(&call.clone().form(form).edition(edition));
    let size = call.pieces[call.pieces.len() - 1].len();
    let sense = rest.split_off(rest.len() - size);
    (rest, sense)
}

/// What both forms can tell; nothing of the registers is zeros.
#[derive(PartialEq)]
struct Told {
    codes: [u8; 3],
    extend: bool,
    error: u8,
    status: u8,
    device: u8,
    count: u8,
    lba: [u8; 3],
    more_count: bool,
    more_lba: bool,
}

fn tell_the_same(fixed: &[u8], descriptor: &[u8], lent: &[u8]) -> bool {
    let size = 8 + usize::from(descriptor[7]);
    let stayed = fixed[18..] == lent[18..] && descriptor[size..] == lent[size..];
    match (read_fixed(fixed), read_descriptor(descriptor)) {
        (Some(fixed), Some(descriptor)) => fixed == descriptor && stayed,
        _ => false,
    }
}

/// Fixed sense, read by itself.
fn read_fixed(sense: &[u8]) -> Option<Told> {
    let form = sense[0] == 0x70 && sense[1] == 0 && sense[7] == 10 && sense[14..18] == [0; 4];
    let flag = |bit: u8| sense[8] >> bit & 1 == 1;
    (form && sense[8] & 0x1F == 0).then(|| Told {
        codes: [sense[2], sense[12], sense[13]],
        extend: flag(7),
        error: sense[3],
        status: sense[4],
        device: sense[5],
        count: sense[6],
        lba: [sense[9], sense[10], sense[11]],
        more_count: flag(6),
        more_lba: flag(5),
    })
}

/// Descriptor sense, with one descriptor of registers or none, likewise.
fn read_descriptor(sense: &[u8]) -> Option<Told> {
    let mut its = [0; 14];
    let size = usize::from(sense[7]);
    if size == its.len() {
        its.copy_from_slice(&sense[8..22]);
    }
    let form = match size {
        0 => true,
        14 => its[..2] == [0x09, 0x0C] && its[2] < 2,
        _ => false,
    };
    (form && sense[0] == 0x72 && sense[4..7] == [0; 3]).then(|| Told {
        codes: [sense[1], sense[2], sense[3]],
        extend: its[2] == 1,
        error: its[3],
        status: its[13],
        device: its[12],
        count: its[5],
        lba: [its[7], its[9], its[11]],
        more_count: its[4] != 0,
        more_lba: its[6] != 0 || its[8] != 0 || its[10] != 0,
    })
}
