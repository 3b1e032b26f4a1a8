//! Inputs of submit and complete with a reset over an order.

use crate::board::Board;
use crate::call::{Call, Said};
use crate::lent::{self, record_of};
use crate::numbers::Numbers;
use crate::orders::command;
use crate::random;
use second::sense::{DESCRIPTOR, FIXED};
use second::Record;

/// Commands whose orders are taken: each protocol that is served but 15, of
/// those with data each way, with CK_COND and EXTEND and without.
fn orders() -> Vec<Vec<u8>> {
    let mut all = Vec::new();
    for (protocol, byte_2) in [
        (0, 0x80),
        (1, 0xC0),
        (3, 0x00),
        (3, 0x20),
        (4, 0x0E),
        (4, 0x2E),
        (5, 0x06),
        (6, 0x2E),
        (6, 0x06),
        (8, 0x20),
        (9, 0x40),
        (10, 0x0E),
        (11, 0x26),
    ] {
        for extend in [0, 1] {
            all.push(command(true, protocol << 1 | extend, byte_2, (1, 1), 0));
        }
    }
    all
}

/// Protocol 15 of the short form.
fn report() -> Vec<u8> {
    command(false, 0x1E, 0x00, (1, 1), 0)
}

/// A story through the record that the board keeps.
struct Story<'a> {
    board: &'a mut Board,
    record: Record,
    begun: bool,
}

impl Story<'_> {
    fn step(&mut self, call: Call) -> Said {
        let mut call = call.record(self.record);
        call.kept = self.begun;
        self.begun = true;
        let said = self.board.call(&call);
        self.record = said.record;
        said
    }

    fn submit(&mut self, command: &[u8]) {
        self.step(lent::submit(command, u32::MAX));
    }
}

/// An order hangs; a reset is taken over it, and a second one is not; what the
/// reset comes to, and that the next order is taken. Reports are between.
pub fn stories(board: &mut Board) {
    let all = orders();
    for hung in &all {
        for reset in &all[..4] {
            for (status, form) in [(0x50, DESCRIPTOR), (0x51, DESCRIPTOR), (0x50, FIXED)] {
                let mut story = Story {
                    board: &mut *board,
                    record: Record::default(),
                    begun: false,
                };
                for command in [hung, hung, &report(), reset, &report(), reset, hung] {
                    story.submit(command);
                }
                for _ in 0..2 {
                    story.step(lent::complete(Record::default(), status).form(form));
                }
                story.submit(hung);
                story.step(lent::complete(Record::default(), status).form(form));
            }
        }
    }
}

/// Every state of one byte, and states whose lower bytes are such a state.
fn state_numbers() -> impl Iterator<Item = u32> {
    (0..=0xFF).chain([
        0x0100,
        0x0102,
        0x0200,
        0x0001_0000,
        0x0001_0002,
        0x0002_0000,
        0x0100_0002,
        0x0200_0000,
        0x8000_0000,
        0x8000_0002,
        0xFFFF_FF02,
        u32::MAX,
    ])
}

/// Protocols of the two orders in a record: all pairs in the states up to 3, and
/// in others each protocol of the order once.
fn protocols(state: u32) -> Vec<(u8, u8)> {
    let known: Vec<u8> = (0..=16).chain([0x80, 0x81, 0xFE, 0xFF]).collect();
    let count = known.len();
    let olders = if state > 3 { 1 } else { count };
    (0..olders * count)
        .map(|at| (known[at % count], known[(at / count + at * 4 + 3) % count]))
        .collect()
}

/// Every protocol submitted in every state, over orders of every kind.
pub fn states(board: &mut Board) {
    for state in state_numbers() {
        for (order, older) in protocols(state) {
            for protocol in 0..16 {
                let from_drive = u8::from(![5, 11].contains(&protocol)) << 3;
                let with_data = if [3, 8, 9].contains(&protocol) { 0 } else { 6 };
                let byte_2 = from_drive | with_data;
                let long = (order ^ older) & 1 == 0;
                let command = command(long, protocol << 1, byte_2, (1, 1), 0);
                let record = record_of(state, order, older);
                board.call(&lent::submit(&command, u32::MAX).record(record));
            }
        }
    }
}

/// Every state completed, with every protocol byte of both orders.
pub fn completions(board: &mut Board) {
    for state in state_numbers() {
        for older in 0..=0xFF_u8 {
            let status = [0x50, 0x51, 0x70][usize::from(older) % 3];
            let order = older.wrapping_mul(3) ^ 0x05;
            board.call(&lent::complete(record_of(state, order, older), status));
        }
    }
    for state in [0, 1, 2, 3, 0xFF, 0x0102] {
        for (order, older) in [(0, 4), (1, 0), (1, 15), (4, 1), (0xFF, 3), (2, 0xFF)] {
            flags(board, record_of(state, order, older));
        }
    }
    for state in [0, 1, 2, 3] {
        let zeros = Record {
            state,
            ..Record::default()
        };
        board.call(&lent::complete(zeros, 0x50));
    }
}

/// This record completed with each CK_COND and EXTEND of both orders that counts
/// as one and as zero.
fn flags(board: &mut Board, given: Record) {
    let all = [(0, 0), (0, 1), (1, 0), (1, 1), (2, 0x80), (0xFF, 0xFE)];
    for own in all {
        for older in all {
            let mut record = given;
            (record.order.ck_cond, record.order.extend) = own;
            (record.older.ck_cond, record.older.extend) = older;
            for status in [0x00, 0x50, 0x51, 0x70] {
                board.call(&lent::complete(record, status));
            }
        }
    }
}

/// Every value of bytes 1 and 2 of a reset that meets an order, or a reset, or
/// both, and the bytes that a reset does not read.
pub fn fields(board: &mut Board) {
    for byte_2 in 0..=0xFF {
        for byte_1 in (0..=0xFF).filter(|byte_1| byte_1 & 0x1C == 0) {
            for (state, order) in [(0, 4), (1, 4), (1, 0), (1, 1), (2, 1), (9, 255)] {
                let control = if byte_2 % 7 == 0 { 0x04 } else { 0xFB };
                let command = command(byte_1 & 0x20 == 0, byte_1, byte_2, (0, 0), control);
                let call = lent::submit(&command, 0).record(record_of(state, order, 4));
                board.call(&call);
            }
        }
    }
}

/// Records of any bytes, lent to orders, resets, protocol 15 and completions.
pub fn any_records(board: &mut Board, seed: u64) {
    let mut numbers = Numbers::new(seed);
    let all = orders();
    for _ in 0..60_000 {
        let mut call = match numbers.below(4) {
            0 => lent::complete(Record::default(), numbers.pick(&[0x50, 0x51, 0x70])),
            1 => lent::submit(&all[numbers.below(4)], 0),
            2 => lent::submit(&report(), 0),
            _ => lent::submit(&all[numbers.below(all.len())], u32::MAX),
        };
        random::odd_record(&mut call, &mut numbers);
        board.call(&call);
    }
}
