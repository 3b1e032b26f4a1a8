//! Inputs of submit and complete.

use crate::board::Board;
use crate::call::{Call, Said, COMPLETE, SUBMIT};
use crate::editions;
use crate::lent::{self, odd_record, room};
use crate::numbers::Numbers;
use second::Record;

const DECLARED: [u32; 8] = [0, 1, 255, 511, 512, 513, 33_553_920, u32::MAX];

/// A command of either form with the fields of bytes 1 and 2, and the same
/// features and count; its other bytes all differ.
pub fn command(long: bool, byte_1: u8, byte_2: u8, numbers: (u16, u16), control: u8) -> Vec<u8> {
    let ([fh, fl], [ch, cl]) = (numbers.0.to_be_bytes(), numbers.1.to_be_bytes());
    if long {
        vec![
            0x85, byte_1, byte_2, fh, fl, ch, cl, 0x17, 0x18, 0x19, 0x1A, 0x1B, 0x1C, 0x1D, 0x1E,
            control,
        ]
    } else {
        vec![
            0xA1, byte_1, byte_2, fl, cl, 0x15, 0x16, 0x17, 0x18, 0x19, 0x1A, control,
        ]
    }
}

/// PROTOCOL as the form has it; 0 where the command is too short.
pub fn protocol_in(command: &[u8]) -> u8 {
    let at = if command.first() == Some(&0x7F) {
        10
    } else {
        1
    };
    command.get(at).map_or(0, |byte| byte >> 1 & 0x0F)
}

/// PROTOCOL by T_LENGTH by T_DIR by BYTE_BLOCK by EXTEND by pending or not, for
/// both opcodes, with counts and declared lengths at their edges.
pub fn fields(board: &mut Board) {
    let numbers = [(0, 0), (1, 2), (2, 1), (0x0100, 0x00FF), (0xFFFF, 0xFFFF)];
    for bits in 0..1024_usize {
        let byte_1 = (bits & 0x1F) as u8;
        let byte_2 = (bits >> 5 & 0x0F) as u8;
        let record = odd_record((bits >> 9) as u32, 1, 1);
        for long in [false, true] {
            for pair in numbers {
                let command = command(long, byte_1, byte_2, pair, 0);
                for declared in DECLARED {
                    let call = lent::submit(&command, declared).record(record);
                    board.call(&call);
                }
            }
        }
    }
}

/// Every value of bytes 1 and 2 of both forms, with and without NACA.
pub fn first_bytes(board: &mut Board) {
    for bits in 0..=0xFFFF_u32 {
        let [byte_1, byte_2] = (bits as u16).to_be_bytes();
        let long = (bits ^ (bits >> 8)) & 1 == 0;
        for (long, control) in [(long, 0x00), (!long, 0xFB)] {
            let command = command(long, byte_1, byte_2, (0x0201, 0x0403), control);
            board.call(&lent::submit(&command, u32::MAX));
        }
    }
    for control in 0..=0xFF {
        for long in [false, true] {
            let command = command(long, 0x08, 0x0E, (1, 1), control);
            board.call(&lent::submit(&command, 512));
        }
    }
}

/// Lengths at the edges of the declared length, of 8 and 16 bits, of bytes and
/// blocks.
pub fn lengths(board: &mut Board) {
    for count in [0, 1, 2, 127, 128, 255, 256, 257, 0x8000, 0xFF00, 0xFFFF_u16] {
        for byte_1 in [0x08, 0x09, 0x0A, 0x0B, 0x0C, 0x0D] {
            for byte_2 in 0..16 {
                let exact = u32::from(count) * if byte_2 & 4 != 0 { 512 } else { 1 };
                let short = u32::from(count & 0xFF) * if byte_2 & 4 != 0 { 512 } else { 1 };
                for base in [exact, short] {
                    for declared in [base.wrapping_sub(1), base, base + 1] {
                        for pair in [(count, 0x0707), (0x0707, count)] {
                            let command = command(true, byte_1, byte_2, pair, 0);
                            board.call(&lent::submit(&command, declared));
                            let command = self::command(false, byte_1, byte_2, pair, 0);
                            board.call(&lent::submit(&command, declared));
                        }
                    }
                }
            }
        }
    }
}

/// Commands of which each refuses by its own numbers, alone and together: NACA
/// (4), PROTOCOL (9), T_LENGTH (11), T_DIR (12), length 0 (13), declared (14).
pub fn refused_commands() -> Vec<Vec<u8>> {
    let mut all = vec![vec![], vec![0x00], vec![0x12; 6], vec![0x00; 16]];
    all.extend([vec![0xA0; 16], vec![0x86; 16], vec![0x85], vec![0xA1]]);
    for long in [false, true] {
        for protocol in [0, 2, 3, 4, 5, 6, 7, 8, 9, 10, 11, 12, 13, 14, 15] {
            for byte_2 in [0x00, 0x02, 0x0A, 0x08, 0x0E, 0x06, 0x03, 0x0B] {
                for count in [0, 1] {
                    for control in [0x00, 0x04] {
                        let pair = (count, count);
                        all.push(command(long, protocol << 1, byte_2, pair, control));
                    }
                }
            }
        }
        let mut short = command(long, 0x08, 0x0E, (1, 1), 0x04);
        short.pop();
        all.push(short.clone());
        short[1] = 0x04;
        all.push(short);
    }
    all
}

/// Every refusal of submit and complete alone, and every two or more together.
pub fn refusals(board: &mut Board) {
    let sizes = [(11, 22), (11, 21), (10, 22), (12, 0)];
    for command in refused_commands() {
        for state in [0, 1, 2] {
            for declared in [0, 1, 511, 512] {
                for (registers, sense) in sizes {
                    let call = lent::submit(&command, declared)
                        .record(odd_record(state, 0, 0))
                        .piece(1, vec![0x51; registers])
                        .piece(3, room(sense));
                    board.call(&call);
                }
            }
        }
    }
    for state in [0, 1, 2, 7] {
        for (registers, sense) in sizes {
            let call = lent::complete(odd_record(state, 1, 1), 0x50)
                .piece(0, vec![0x51; registers])
                .piece(1, room(sense));
            board.call(&call);
        }
    }
}

/// All sizes around the edges of each lent piece.
pub fn sizes(board: &mut Board) {
    let full = [
        command(false, 0x08, 0x0E, (1, 1), 0),
        command(true, 0x06, 0x20, (0, 0), 0),
        command(true, 0x1E, 0x00, (0, 0), 0),
        command(true, 0x08, 0x0E, (1, 1), 0x04),
    ];
    for whole in full {
        for size in 0..=whole.len() + 4 {
            let mut command = whole.clone();
            command.resize(size, 0xFF);
            for registers in [0, 1, 10, 11, 12, 22] {
                for sense in [0, 1, 7, 8, 9, 21, 22, 23, 64] {
                    let call = lent::submit(&command, 512)
                        .piece(1, vec![0x40; registers])
                        .piece(3, room(sense));
                    board.call(&call);
                }
            }
        }
    }
    for registers in 0..24 {
        for sense in 0..40 {
            for state in [0, 1, 2] {
                let call = lent::complete(odd_record(state, 1, 0), 0x50)
                    .piece(0, vec![0x51; registers])
                    .piece(1, room(sense));
                board.call(&call);
            }
        }
    }
}

/// Every drive status, with and without CK_COND and EXTEND.
pub fn completions(board: &mut Board) {
    for status in 0..=0xFF {
        for (ck_cond, extend) in [(0, 0), (0, 1), (1, 0), (1, 1)] {
            for state in [0, 1, 2] {
                board.call(&lent::complete(odd_record(state, ck_cond, extend), status));
            }
        }
    }
}

/// Records with contents that no order has, lent to every function that takes
/// one.
pub fn odd_records(board: &mut Board) {
    let command = command(true, 0x09, 0x2E, (1, 1), 0);
    let reset = self::command(false, 0x02, 0xC0, (1, 1), 0);
    let report = self::command(false, 0x1E, 0x00, (1, 1), 0);
    for state in [0, 1, 2, 7, 0x0100, 0x0001_0000, 0x8000_0002, u32::MAX] {
        for ck_cond in [0, 1, 2, 128, 200, 255] {
            for extend in [0, 1, 2, 9, 128, 254, 255] {
                let record = odd_record(state, ck_cond, extend);
                for command in [&command, &reset, &report] {
                    board.call(&lent::submit(command, 512).record(record));
                }
                for status in [0x00, 0x50, 0x51, 0x70, 0x21, 0xDE] {
                    board.call(&lent::complete(record, status));
                }
            }
        }
    }
}

/// Long runs of submit and complete through one record, which the board keeps:
/// whether every order that was taken is ended, or told lost, once, or is still
/// pending, and every kind of step was made.
pub fn sequences(board: &mut Board, seed: u64) -> bool {
    let mut told = Told::default();
    for run in 0..12 {
        let mut numbers = Numbers::new(seed ^ (run << 32));
        let mut record = Record::default();
        told.pending.clear();
        for step in 0..4000 {
            let mut call = a_step(&mut numbers);
            call.record = record;
            call.kept = step > 0;
            let said = board.call(&call);
            if !told.step(&call, &said) {
                return false;
            }
            record = said.record;
        }
    }
    told.ended
        .iter()
        .chain(&told.busy)
        .all(|&times| times > 100)
}

/// The orders of a sequence, by what was said of them alone.
#[derive(Default)]
struct Told {
    /// The protocols of those that were taken and of which nothing was told yet.
    pending: Vec<u8>,
    /// How often a completion found nothing, an order, a reset, both.
    ended: [u32; 4],
    /// How often a reset and another order were BUSY.
    busy: [u32; 2],
}

impl Told {
    /// Whether a step tells of what is pending, and of nothing else.
    fn step(&mut self, call: &Call, said: &Said) -> bool {
        let protocol = protocol_in(&call.pieces[0]);
        match (call.function, said.number) {
            (SUBMIT, 0) if protocol != 15 => self.pending.push(protocol),
            (SUBMIT, 10) => self.busy[usize::from(protocol > 1)] += 1,
            (COMPLETE, 15) => self.ended[0] += 1,
            (COMPLETE, 0) => return self.end(said.lost),
            _ => {}
        }
        self.pending.len() <= 2
    }

    /// What was taken last ends, and what was taken before it is lost.
    fn end(&mut self, lost: (u8, u8)) -> bool {
        let last = self.pending.pop();
        let older = self.pending.pop();
        self.ended[match (last, older) {
            (_, Some(_)) => 3,
            (Some(0 | 1), None) => 2,
            _ => 1,
        }] += 1;
        last.is_some() && lost == older.map_or((0, 0), |protocol| (1, protocol))
    }
}

/// A step of a sequence: mostly orders that are taken and completions, and
/// between them refusals, protocol 15, resets and errors.
fn a_step(numbers: &mut Numbers) -> Call {
    if numbers.below(5) < 2 {
        let status = numbers.pick(&[0x50, 0x50, 0x51, 0x70, 0x40]);
        let mut call = lent::complete(Record::default(), status);
        call.pieces[0][..10].copy_from_slice(&numbers.bytes(10));
        if numbers.once_in(20) {
            call.pieces[0].pop();
        }
        return call;
    }
    let mut command = a_command(numbers);
    if numbers.once_in(16) {
        command.truncate(numbers.below(command.len() + 1));
    }
    if numbers.once_in(32) {
        command.insert(0, 0x12);
    }
    let declared = numbers.pick(&[0, 512, 0x0002_0000, u32::MAX, u32::MAX]);
    let mut call = lent::submit(&command, declared);
    let size = if numbers.once_in(20) { 12 } else { 11 };
    call.pieces[1] = numbers.bytes(size);
    if numbers.once_in(8) {
        call.pieces[2].clear();
    }
    call
}

/// A command of such a step, of any form.
fn a_command(numbers: &mut Numbers) -> Vec<u8> {
    let protocol = match numbers.below(6) {
        0 => 15,
        1 => numbers.below(2) as u8,
        _ => numbers.below(16) as u8,
    };
    let first = protocol << 1 | numbers.byte() & 0xE1;
    let pair = (numbers.byte() as u16, numbers.next() as u16);
    let control = if numbers.once_in(16) { 0x04 } else { 0x00 };
    if numbers.once_in(3) {
        let mut command = editions::command(first, numbers.byte(), pair, control);
        command[8] ^= u8::from(numbers.once_in(16));
        return command;
    }
    let mut command = command(numbers.once_in(2), first, numbers.byte(), pair, control);
    for at in 5..command.len() - 1 {
        command[at] = numbers.byte();
    }
    command
}
