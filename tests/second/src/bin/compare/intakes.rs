//! Inputs of the intake: runs and divided streams, and INQUIRY and rolls with
//! the blocks that it gives.

use crate::board::Board;
use crate::call::{Call, INTAKE_EMPTY};
use crate::inquiries;
use crate::lent::{self, packet, room};
use crate::numbers::Numbers;
use crate::rolls;
use second::Intake;

const SUMS: [u16; 5] = [0, 1, 255, 256, 65_535];

/// Ways to divide a stream: these lengths of runs, over and over.
const DIVISIONS: [&[usize]; 11] = [
    &[1],
    &[2],
    &[3],
    &[7],
    &[511],
    &[512],
    &[513],
    &[0, 1],
    &[0, 0, 7],
    &[511, 0, 1],
    &[0, 512],
];

/// Bytes for a run; neighbours differ.
fn bytes(size: usize) -> Vec<u8> {
    (0..size).map(|at| (at * 7 + at / 256 + 2) as u8).collect()
}

/// Every number of bytes that an intake can have, and one more, by runs of no
/// byte, of one, and of those that end around byte 512; and runs whose length
/// is at the edge of 16 bits, or past it.
pub fn runs(board: &mut Board) {
    board.call(&Call::new(INTAKE_EMPTY, Vec::new()));
    let store = lent::text_block();
    for have in 0..=513 {
        let rest = 512_usize.saturating_sub(usize::from(have));
        for size in [0, 1, rest.saturating_sub(1), rest, rest + 1, rest + 300] {
            for sum in SUMS {
                board.call(&lent::take(Intake { have, sum }, &store, &bytes(size)));
            }
        }
    }
    for size in [32_767, 32_768, 65_535, 65_536, 65_537, 66_048] {
        for have in [0, 1, 511, 512, 513] {
            board.call(&lent::take(Intake { have, sum: 0 }, &store, &bytes(size)));
        }
    }
}

/// What an intake claims by sizes of its store, right and wrong; the large
/// ones are right if cut to 8 or 16 bits.
pub fn claims_and_stores(board: &mut Board) {
    let claims = [
        0, 1, 255, 256, 511, 512, 513, 514, 767, 768, 1024, 32_767, 32_768, 33_280, 65_024, 65_535,
    ];
    for have in claims {
        for size in [0, 1, 255, 256, 510, 511, 512, 513, 514, 1023, 1024] {
            for run in [0, 1, 512, 600] {
                for sum in [7, 65_535] {
                    board.call(&lent::take(Intake { have, sum }, &room(size), &bytes(run)));
                }
            }
        }
        for size in [32_768, 65_535, 65_536, 66_048] {
            board.call(&lent::take(Intake { have, sum: 1 }, &room(size), &bytes(3)));
        }
    }
}

/// Streams of real blocks, of other lengths, and of random ones, divided in
/// many ways. Back: whether each came to what a single run gives.
pub fn divided(board: &mut Board, blocks: &[Vec<u8>], seed: u64) -> bool {
    let mut agree = true;
    let mut feed = |stream: &[u8], lengths: &[usize]| agree &= fed(board, stream, lengths);
    for block in blocks {
        let on_the_wire = [&block[..], &bytes(9)].concat();
        DIVISIONS.iter().for_each(|way| feed(&on_the_wire, way));
    }
    for size in [0, 1, 2, 300, 511, 512, 513, 1100] {
        for way in [&[1][..], &[7], &[0, 64], &[511, 1], &[2000]] {
            feed(&bytes(size), way);
        }
    }
    let mut numbers = Numbers::new(seed);
    for _ in 0..200 {
        let size = numbers.below(700);
        let most = numbers.pick(&[9, 40, 300, 700]);
        let mut way: Vec<usize> = (0..50).map(|_| numbers.below(most)).collect();
        way.push(1);
        feed(&numbers.bytes(size), &way);
    }
    agree
}

/// Feeds a stream to an empty intake, in runs of these lengths over and over,
/// and asks for page 89h from what it has then. Back: whether the store, the
/// completion point, the bytes used and the sum are those of a single run.
fn fed(board: &mut Board, stream: &[u8], lengths: &[usize]) -> bool {
    let (mut intake, mut store) = (second::intake_empty(), room(512));
    let (mut rest, mut used, mut at) = (stream, 0, 0);
    let mut agree = true;
    while !rest.is_empty() {
        let length = lengths[at % lengths.len()].min(rest.len());
        board.call(&lent::take(intake, &store, &rest[..length]));
        let answer = second::intake_take(intake, &mut store, &rest[..length]);
        used += usize::from(answer.used);
        agree &= (answer.complete == 1) == (used == 512);
        intake = answer.next;
        rest = &rest[length..];
        at += 1;
    }
    let call = lent::inquiry_page(0x89, 572).piece(1, store.clone());
    board.call(&lent::from_intake(call, intake.have));
    let kept = &stream[..stream.len().min(512)];
    let mut wanted = room(512);
    wanted[..kept.len()].copy_from_slice(kept);
    let sum = kept.iter().map(|&byte| u32::from(byte)).sum::<u32>() % 256;
    let whole = (kept.len(), usize::from(intake.have), u32::from(intake.sum));
    agree && store == wanted && whole == (used, used, sum)
}

/// INQUIRY with an intake's block: every refusal alone, and every two or more that can
/// apply together.
pub fn refusals(board: &mut Board) {
    let intakes = [
        (512, 512),
        (511, 512),
        (0, 512),
        (513, 512),
        (65_535, 512),
        (512, 511),
        (0, 0),
        (512, 513),
    ];
    for (have, store) in intakes {
        refusals_of(board, have, lent::holey_block(), store);
    }
    for have in [512, 511, 513] {
        refusals_of(board, have, lent::damaged_block(), 512);
    }
}

/// The same of one intake, whose store is made to have this size.
fn refusals_of(board: &mut Board, have: u16, store: Vec<u8>, size: usize) {
    let replies: [&[u8]; 2] = [&[5, 0, 9, 2, 0x80, 0x80], &[5, 0, 9, 2, 0x80, 0x90]];
    let signatures = [lent::plain_signature(), lent::packet_signature()];
    for command in inquiries::commands() {
        for signature in &signatures {
            for (reply, space) in [(0, 0), (0, 600), (1, 0), (1, 600)] {
                for (texts, sense) in [(28, 22), (27, 22), (28, 21)] {
                    let mut call = lent::inquiry(&command)
                        .piece(1, store.clone())
                        .piece(2, signature.clone())
                        .piece(3, vec![0x33; texts])
                        .piece(4, replies[reply].to_vec())
                        .piece(6, room(space))
                        .piece(7, room(sense));
                    call.pieces[1].resize(size, 0x2E);
                    board.call(&lent::from_intake(call, have));
                }
            }
        }
    }
}

/// INQUIRY with an intake's block: every page of every kind of block, complete or not, with
/// any sum carried along.
pub fn pages(board: &mut Board) {
    for block in lent::blocks() {
        for (evpd, page) in [(0, 0x00), (1, 0x00), (1, 0x80), (1, 0x83), (1, 0x89)] {
            for allocation in [0, 5, 36, 100, 572, 0xFFFF_u16] {
                let [high, low] = allocation.to_be_bytes();
                let command = [0x12, evpd, page, high, low, 0];
                let plain = lent::inquiry(&command).piece(1, block.clone());
                for call in [packet(plain.clone(), &[5, 0, 0, 1, 0x80]), plain] {
                    for have in [512, 511, 1] {
                        let sum = allocation;
                        let asked = lent::from_intake(call.clone(), have);
                        board.call(&asked.intake(Intake { have, sum }));
                    }
                }
            }
        }
    }
}

/// What so many intakes have: all complete, none, some, and wrong claims.
fn claimed(count: usize) -> Vec<Vec<u16>> {
    let some = [512, 511, 512, 0, 1, 512, 256];
    let mut all = vec![vec![512; count], vec![511; count]];
    all.push((0..count).map(|at| some[at % some.len()]).collect());
    let mut all_but_one = vec![512; count];
    all_but_one[..1.min(count)].fill(0);
    all.push(all_but_one);
    for wrong in [513, 1024, 65_535] {
        let mut claims = vec![512; count];
        claims[..1.min(count)].fill(wrong);
        claims.reverse();
        all.push(claims);
    }
    all
}

/// Room and rows for so many blocks: n - 1, n and n + 1 of each where the stores
/// are right, else only room of n - 1 and n.
fn spaces(complete: usize, stores_are_right: bool) -> Vec<(usize, usize)> {
    let size = 512 * complete;
    let mut all = vec![(size.saturating_sub(1), complete), (size, complete)];
    if stores_are_right {
        all.push((size + 1, complete));
        for rows in [complete.saturating_sub(1), complete + 1] {
            all.extend([size.saturating_sub(1), size, size + 1].map(|space| (space, rows)));
        }
    }
    all
}

/// Rolls of 0 to 65 intakes, and of more, of which not all are complete or more
/// than a roll takes: stores of n - 1, n and n + 1 bytes, room and rows likewise.
pub fn roll_sizes(board: &mut Board) {
    let mut stores = rolls::different().concat();
    stores.resize(512 * 1000, 0x41);
    for count in [0, 1, 3, 64, 65] {
        for haves in claimed(count) {
            let complete = haves.iter().filter(|&&have| have == 512).count();
            for more in [-512, -1, 0, 1, 512_isize] {
                let stores = &stores[..lent::near(512 * count, more)];
                for (space, rows) in spaces(complete, more == 0) {
                    board.call(&lent::intake_roll(&haves, stores, space, rows));
                }
            }
        }
    }
    for (count, complete) in [
        (66, 64),
        (66, 65),
        (130, 64),
        (130, 65),
        (130, 130),
        (1000, 64),
        (1000, 65),
        (1000, 1000),
    ] {
        let mut haves = vec![511; count - complete];
        haves.extend(vec![512; complete]);
        let stores = &stores[stores.len() - 512 * count..];
        for space in [512 * complete - 1, 512 * complete, 512 * complete + 1] {
            board.call(&lent::intake_roll(&haves, stores, space, complete));
        }
    }
}

/// A damaged store at each place of a run of intakes, complete there or not,
/// with another that claims too much, and with room that is too short.
pub fn roll_damaged(board: &mut Board) {
    let count = 5;
    for at in 0..count {
        let mut stores = rolls::different()[..count].to_vec();
        stores[at] = lent::damaged_block();
        for have in [512, 511, 0] {
            for other in [512, 511, 513] {
                let mut haves = vec![512; count];
                haves[(at + 2) % count] = other;
                haves[at] = have;
                let complete = haves.iter().filter(|&&have| have == 512).count();
                for (space, rows) in spaces(complete, true) {
                    board.call(&lent::intake_roll(&haves, &stores.concat(), space, rows));
                }
            }
        }
    }
}

/// Rolls of intakes among which drives come again, in complete intakes and in
/// others: only the complete ones have a row.
pub fn roll_twins(board: &mut Board, seed: u64) {
    let mut numbers = Numbers::new(seed);
    let drives = rolls::different();
    for count in [2, 3, 5, 8, 24, 64, 70] {
        for kinds in [1, 2, 4, 16, 64] {
            for _ in 0..4 {
                let stores: Vec<Vec<u8>> = (0..count)
                    .map(|_| rolls::twin(&drives[numbers.below(kinds)], &mut numbers))
                    .collect();
                let haves: Vec<u16> = (0..count)
                    .map(|_| numbers.pick(&[512, 512, 512, 0, 1, 511]))
                    .collect();
                let space = 512 * count + numbers.below(2);
                board.call(&lent::intake_roll(&haves, &stores.concat(), space, count));
            }
        }
    }
}
