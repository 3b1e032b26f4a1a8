//! The builder against searches: every command with small fields, of both
//! forms, is submitted with many declared lengths, and the orders that come of
//! them are those that are built.

use second::{build, submit, Order, Record};
use std::collections::hash_map::{Entry, HashMap};
use std::collections::HashSet;
use std::hash::Hash;

/// MULTIPLE_COUNT and OFF_LINE where they stand in their bytes.
const MULTIPLE_COUNTS: [u8; 2] = [0x00, 0x60];
const OFF_LINES: [u8; 2] = [0x00, 0x80];
const FEATURES: [u16; 4] = [0x0000, 0x0001, 0x0100, 0x0200];
const COUNTS: [u16; 5] = [0x0000, 0x0001, 0x0003, 0x0100, 0x0200];
const LBA_MID: [u16; 2] = [0x0000, 0x0101];
/// What these counts tell in bytes and in blocks, and what none of them tells.
const LENGTHS: [u32; 9] = [0, 1, 3, 5, 256, 512, 1536, 131_072, 262_144];

/// A command of either form; `ignored` stands in bytes that nobody reads, but
/// for NACA.
fn command(long: bool, flags: [u8; 2], numbers: [u16; 3], ignored: u8) -> Vec<u8> {
    let [features, count, lba_mid] = numbers.map(u16::to_be_bytes);
    let mut command = if long {
        vec![0x85, flags[0], flags[1]]
    } else {
        vec![0xA1, flags[0], flags[1]]
    };
    let from = if long { 0 } else { 1 };
    for register in [features, count, [0; 2], lba_mid, [0; 2]] {
        command.extend(&register[from..]);
    }
    command.extend([0x00, 0x00]);
    if !long {
        command.push(ignored);
    }
    command.push(ignored & 0xFB);
    command
}

/// Both flag bytes: every value of them with one of the few counts.
fn flags() -> Vec<[u8; 2]> {
    let mut all = Vec::new();
    for multiple_count in MULTIPLE_COUNTS {
        for off_line in OFF_LINES {
            for first in 0..0x20 {
                all.extend((0..0x40).map(|second| [multiple_count | first, off_line | second]));
            }
        }
    }
    all
}

/// The registers' numbers, in every combination.
fn numbers() -> Vec<[u16; 3]> {
    let mut all = Vec::new();
    for features in FEATURES {
        for count in COUNTS {
            all.extend(LBA_MID.map(|lba_mid| [features, count, lba_mid]));
        }
    }
    all
}

/// The order that a command makes in the first edition with nothing pending.
fn order_of(command: &[u8], declared: u32) -> Option<Order> {
    let (mut record, mut sense) = (Record::default(), [0; 22]);
    let taken = submit(
        &mut record,
        command,
        &[0; 11],
        &[],
        declared,
        1,
        0,
        &mut sense,
    );
    (taken.number == 0 && taken.status == 0xFF).then_some(taken.order)
}

/// What counts of a command (RULES 16.4), and the length that it points at.
#[derive(Clone, Copy, Debug, PartialEq, Eq, Hash)]
struct Counts {
    protocol: u8,
    off_line: u8,
    /// MULTIPLE_COUNT, EXTEND, CK_COND; T_DIR with data.
    flags: [u8; 4],
    registers: [u16; 5],
    device_and_command: [u8; 2],
    length: u64,
}

fn counts_of(command: &[u8], declared: u32) -> Counts {
    let long = command[0] == 0x85;
    let (first, second) = (command[1], command[2]);
    let extend = if long { first & 1 } else { 0 };
    let register = |place: usize| match (long, extend) {
        (false, _) => u16::from(command[3 + place]),
        (true, 0) => u16::from(command[4 + 2 * place]),
        _ => u16::from_be_bytes([command[3 + 2 * place], command[4 + 2 * place]]),
    };
    let of_reset = Counts {
        protocol: first >> 1 & 0x0F,
        off_line: second >> 6,
        flags: [0; 4],
        registers: [0; 5],
        device_and_command: [0; 2],
        length: 0,
    };
    if of_reset.protocol <= 1 {
        return of_reset;
    }
    let unit = if second & 0x04 != 0 { 512 } else { 1 };
    let t_dir = if second & 0x03 != 0 {
        second >> 3 & 1
    } else {
        0
    };
    let at = if long { 13 } else { 8 };
    Counts {
        flags: [first >> 5, extend, second >> 5 & 1, t_dir],
        registers: [0, 1, 2, 3, 4].map(register),
        device_and_command: [command[at], command[at + 1]],
        length: match second & 0x03 {
            0 => 0,
            1 => unit * u64::from(register(0)),
            2 => unit * u64::from(register(1)),
            _ => declared.into(),
        },
        ..of_reset
    }
}

/// Calls `each` with every command and declared length that make an order.
fn for_each_taken(mut each: impl FnMut(&[u8], u32, Order)) {
    let (flags, numbers) = (flags(), numbers());
    for long in [false, true] {
        for &flags in &flags {
            for (at, &numbers) in numbers.iter().enumerate() {
                let ignored = if at % 3 == 0 { 0xFF } else { 0x00 };
                let command = command(long, flags, numbers, ignored);
                for declared in LENGTHS {
                    if let Some(order) = order_of(&command, declared) {
                        each(&command, declared, order);
                    }
                }
            }
        }
    }
}

/// That a key always comes with the same value.
fn enter<K: Eq + Hash, V: Copy + PartialEq>(map: &mut HashMap<K, V>, key: K, value: V) -> bool {
    match map.entry(key) {
        Entry::Occupied(held) => *held.get() == value,
        Entry::Vacant(place) => {
            place.insert(value);
            true
        }
    }
}

/// Two commands make the same order exactly if they agree in what counts and
/// point at the same length.
#[test]
fn same_order_same_fields() {
    let (mut by_order, mut by_counts) = (HashMap::new(), HashMap::new());
    let mut taken = 0;
    for_each_taken(|command, declared, order| {
        let counts = counts_of(command, declared);
        assert!(enter(&mut by_order, order, counts), "{command:X?}");
        assert!(enter(&mut by_counts, counts, order), "{command:X?}");
        taken += 1;
    });
    assert!(by_order.len() > 10_000 && taken > 10 * by_order.len());
}

/// Orders whose fields are those of the commands above, or next to them.
fn orders_of(protocol: u8, direction: u8) -> Vec<Order> {
    let mut all = Vec::new();
    for [features, count, lba_mid] in numbers() {
        for length in LENGTHS {
            all.extend(
                OTHERS.map(|[quiet, sectors, auxiliary, ck_cond, extend]| Order {
                    length,
                    auxiliary: auxiliary.into(),
                    features,
                    count,
                    lba_mid,
                    quiet_seconds: quiet.into(),
                    sectors_per_block: sectors.into(),
                    protocol,
                    ck_cond,
                    extend,
                    direction,
                    ..Order::default()
                }),
            );
        }
    }
    all
}

/// Quiet seconds, sectors, the auxiliary number, CK_COND and EXTEND.
const OTHERS: [[u8; 5]; 14] = [
    [0, 1, 0, 0, 0],
    [0, 1, 0, 0, 1],
    [0, 1, 0, 1, 0],
    [6, 8, 0, 1, 1],
    [6, 1, 0, 0, 0],
    [0, 8, 0, 0, 1],
    [5, 1, 0, 0, 0],
    [8, 8, 0, 0, 1],
    [6, 0, 0, 0, 0],
    [0, 9, 0, 0, 1],
    [0, 1, 1, 0, 0],
    [6, 8, 1, 0, 1],
    [0, 1, 0, 2, 0],
    [0, 1, 0, 0, 2],
];

/// An order is refused exactly if no command makes it, and else built into one
/// that does.
#[test]
fn refused_exactly_if_none_makes_it() {
    let mut made = HashSet::new();
    for_each_taken(|_, _, order| {
        made.insert(order);
    });
    let mut seen = [0; 2];
    for protocol in (0..=16).chain([0x13, 0xFF]) {
        for order in (0..=3).flat_map(|direction| orders_of(protocol, direction)) {
            let built = build(order);
            let command = &built.command[..built.size.into()];
            match built.number {
                0 => assert_eq!(order_of(command, order.length), Some(order)),
                number => assert_eq!(number, 23),
            }
            assert_eq!(built.number == 0, made.contains(&order), "{order:?}");
            seen[usize::from(built.number == 0)] += 1;
        }
    }
    assert!(seen.iter().all(|&times| times > 1_000), "{seen:?}");
}
