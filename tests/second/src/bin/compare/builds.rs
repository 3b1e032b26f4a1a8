//! Inputs of the builder: orders that commands make, and others next to them.

use crate::board::Board;
use crate::call::Call;
use crate::lent;
use crate::numbers::Numbers;
use crate::orders::command;
use crate::random;
use second::{Order, Record};

/// Protocols with the directions that they have.
const WAYS: [(u8, u8); 11] = [
    (0, 0),
    (1, 0),
    (3, 0),
    (8, 0),
    (9, 0),
    (4, 1),
    (10, 1),
    (5, 2),
    (11, 2),
    (6, 1),
    (6, 2),
];

/// The order that a submitted command makes with nothing pending, if any.
fn order_of(call: &Call) -> Option<Order> {
    let (p, edition) = (&call.pieces, call.edition.unwrap_or(0));
    let (mut record, mut sense) = (Record::default(), [0; 22]);
    second::submit(
        &mut record,
        &p[0],
        &p[1],
        &p[2],
        call.declared,
        edition,
        0,
        &mut sense,
    );
    (record.state != 0).then_some(record.order)
}

/// The orders of commands of both forms with every byte 1 and byte 2, by counts
/// of one and two bytes, of which some tell the same length.
pub fn commands(board: &mut Board) {
    for bits in (0..=0xFFFF_u32).filter(|bits| bits & 0x10 == 0) {
        let [byte_1, byte_2] = (bits as u16).to_be_bytes();
        for pair in [(1, 2), (0x0200, 0x0001), (0x0001, 0x0200), (0xFFFF, 0xFF00)] {
            for long in [false, true] {
                let command = command(long, byte_1, byte_2, pair, 0);
                if let Some(order) = order_of(&lent::submit(&command, u32::MAX - bits)) {
                    board.call(&lent::build(order));
                }
            }
        }
    }
}

/// An order of each kind, of which all registers differ: resets of all seconds,
/// and every other protocol each way in both forms.
fn kinds() -> Vec<Order> {
    let mut all = Vec::new();
    for (protocol, direction) in WAYS {
        for way in 0..4_u16 {
            let extend = if protocol < 2 { 0 } else { way & 1 };
            let quiet_seconds = (2 << way) - 2;
            let order = lent::order(protocol, direction, extend as u8);
            all.push(Order {
                quiet_seconds,
                ..order
            });
        }
    }
    all
}

/// A field of an order, and how it is set.
type Set = fn(&mut Order, u32);

const BYTES: [Set; 6] = [
    |order, number| order.device = number as u8,
    |order, number| order.command = number as u8,
    |order, number| order.protocol = number as u8,
    |order, number| order.ck_cond = number as u8,
    |order, number| order.extend = number as u8,
    |order, number| order.direction = number as u8,
];

const WIDER: [Set; 9] = [
    |order, number| order.length = number,
    |order, number| order.auxiliary = number,
    |order, number| order.features = number as u16,
    |order, number| order.count = number as u16,
    |order, number| order.lba_low = number as u16,
    |order, number| order.lba_mid = number as u16,
    |order, number| order.lba_high = number as u16,
    |order, number| order.quiet_seconds = number as u16,
    |order, number| order.sectors_per_block = number as u16,
];

/// An order of each kind with one field changed: of a byte to every value, of
/// wider ones to each bit alone and missing, and next to those that count.
pub fn changed(board: &mut Board) {
    let edges = (0..=17).chain([127, 128, 129, 255, 256, 257, 512, 0x0102, 0x0200]);
    let bits = (0..32).flat_map(|bit| [1 << bit, !(1 << bit)]);
    let (bytes, wide): (Vec<u32>, Vec<u32>) = ((0..=0xFF).collect(), edges.chain(bits).collect());
    for order in kinds() {
        board.call(&lent::build(order));
        change(board, order, &BYTES, &bytes);
        change(board, order, &WIDER, &wide);
    }
}

/// The order with each of these fields set to each of these values.
fn change(board: &mut Board, order: Order, fields: &[Set], values: &[u32]) {
    for set in fields {
        for &value in values {
            let mut one = order;
            set(&mut one, value);
            board.call(&lent::build(one));
        }
    }
}

/// Every number of quiet seconds and of sectors, of a reset and of an order in
/// each form.
pub fn numbers(board: &mut Board) {
    let all: Vec<u32> = (0..=0xFFFF).collect();
    for order in [(1, 0, 0), (4, 1, 0), (3, 0, 1)] {
        let order = lent::order(order.0, order.1, order.2);
        change(board, order, &WIDER[7..], &all);
    }
}

/// Lengths next to what features and count tell in bytes and in blocks, and
/// neither, of which often two are the same.
pub fn lengths(board: &mut Board) {
    const NUMBERS: [u16; 13] = [
        0, 1, 2, 127, 128, 255, 256, 511, 512, 1024, 0x8000, 0xFF00, 0xFFFF,
    ];
    for features in NUMBERS {
        for count in NUMBERS {
            let [f, c] = [features, count].map(u32::from);
            let near = [f, c, 512 * f, 512 * c]
                .into_iter()
                .flat_map(|told| [told.wrapping_sub(1), told, told + 1]);
            for length in near.chain([u32::MAX / 2]) {
                for (protocol, direction) in [(4, 1), (11, 2), (6, 1), (6, 2), (3, 0)] {
                    for extend in [0, 1] {
                        board.call(&lent::build(Order {
                            length,
                            features,
                            count,
                            ..lent::order(protocol, direction, extend)
                        }));
                    }
                }
            }
        }
    }
}

/// Random commands: whether each order that one makes, in either edition, is
/// built and made again, but for one with an auxiliary number, which is refused.
pub fn made_again(board: &mut Board, seed: u64, real: &[Vec<u8>]) -> bool {
    let mut numbers = Numbers::new(seed);
    let mut times = [0; 2];
    for _ in 0..60_000 {
        let order = match order_of(&random::submit(&mut numbers, real)) {
            Some(order) => order,
            None => continue,
        };
        let said = board.call(&lent::build(order));
        let refused = order.auxiliary != 0;
        let right = match said.number {
            0 => !refused && said.record.order == order,
            number => refused && number == 23,
        };
        if !right {
            return false;
        }
        times[usize::from(refused)] += 1;
    }
    times.iter().all(|&times| times > 1_000)
}

/// An order that some command makes.
pub fn any(numbers: &mut Numbers) -> Order {
    let (protocol, direction) = numbers.pick(&WAYS);
    if protocol < 2 {
        return Order {
            quiet_seconds: numbers.pick(&[0, 2, 6, 14]),
            ..lent::order(protocol, direction, 0)
        };
    }
    let extend = numbers.below(2) as u8;
    let mask = if extend == 0 { 0x00FF } else { 0xFFFF };
    let [features, count, lba_low, lba_mid, lba_high] =
        [(); 5].map(|()| numbers.next() as u16 & mask);
    let any = u32::from(numbers.byte()) + 1;
    let places = [
        512 * u32::from(count),
        count.into(),
        512 * u32::from(features),
    ];
    let told = numbers.pick(&[places[0], places[1], places[2], features.into(), any]);
    Order {
        length: if direction == 0 { 0 } else { told.max(1) },
        auxiliary: 0,
        features,
        count,
        lba_low,
        lba_mid,
        lba_high,
        quiet_seconds: numbers.pick(&[0, 2, 6, 14]),
        sectors_per_block: 1 << numbers.below(8),
        device: numbers.byte(),
        command: numbers.byte(),
        protocol,
        ck_cond: numbers.below(2) as u8,
        extend,
        direction,
    }
}

/// The order with a field or two changed to any number.
pub fn damaged(mut order: Order, numbers: &mut Numbers) -> Order {
    for _ in 0..1 + numbers.below(2) {
        let value = match numbers.below(3) {
            0 => numbers.next() as u32,
            1 => 1 << numbers.below(16),
            _ => numbers.below(20) as u32,
        };
        let at = numbers.below(BYTES.len() + WIDER.len());
        let set = BYTES.iter().chain(&WIDER).nth(at);
        set.into_iter().for_each(|set| set(&mut order, value));
    }
    order
}
