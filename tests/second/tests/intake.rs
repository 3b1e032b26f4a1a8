//! The intake (RULES 12): runs off the wire, and the block that comes of them.

mod common;

use common::*;
use second::{
    block_size, gather, intake_empty, intake_take, roll, Counted, Inquiry, Intake, RunTaken,
};

fn intake(have: u16, sum: u16) -> Intake {
    Intake { have, sum }
}

/// So many bytes, whose neighbours differ.
fn stream(size: usize) -> Vec<u8> {
    (0..size).map(|at| (at * 7 + at / 256) as u8).collect()
}

fn sum(bytes: &[u8]) -> u16 {
    let total: u32 = bytes.iter().map(|&byte| u32::from(byte)).sum();
    (total & 0xFF) as u16
}

/// What a stream came to: the intake and its store, the bytes used in all,
/// and how many bytes of the stream had come when it first was complete.
#[derive(Debug, PartialEq)]
struct Came {
    intake: Intake,
    store: Vec<u8>,
    total: usize,
    complete_at: Option<usize>,
}

/// Feeds the runs to an empty intake; checks that each answer is a right step.
fn feed(runs: &[&[u8]]) -> Came {
    let mut came = Came {
        intake: intake_empty(),
        store: vec![FILL; 512],
        total: 0,
        complete_at: None,
    };
    for run in runs {
        let answer = intake_take(came.intake, &mut came.store, run);
        assert_eq!(answer.number, 0);
        came.total += usize::from(answer.used);
        if answer.complete == 1 && came.complete_at.is_none() {
            came.complete_at = Some(came.total);
        }
        assert_eq!(usize::from(answer.next.have), came.total);
        assert_eq!(answer.complete == 1, answer.next.have == 512);
        came.intake = answer.next;
    }
    came
}

/// The stream in runs of these lengths over and over, to its end.
fn divided<'a>(stream: &'a [u8], lengths: &[usize]) -> Vec<&'a [u8]> {
    let mut runs = Vec::new();
    let mut rest = stream;
    for length in lengths.iter().cycle() {
        if rest.is_empty() {
            return runs;
        }
        let (run, behind) = rest.split_at(rest.len().min(*length));
        runs.push(run);
        rest = behind;
    }
    runs
}

/// The division of a stream into runs changes nothing of what comes of it.
#[test]
fn a_divided_stream_is_as_one_run() {
    for size in [0, 1, 2, 300, 510, 511, 512, 513, 514, 1024, 1500] {
        let stream = stream(size);
        let whole = feed(&[&stream]);
        for length in (1..20).chain([255, 256, 511, 512, 513, 2000]) {
            assert_eq!(feed(&divided(&stream, &[length])), whole);
            assert_eq!(feed(&divided(&stream, &[length, 0])), whole);
            assert_eq!(feed(&divided(&stream, &[0, 0, length, 3])), whole);
        }
    }
}

#[test]
fn streams_divided_at_random_are_as_one_run() {
    let mut numbers = Numbers(61);
    for _ in 0..2000 {
        let stream: Vec<u8> = (0..numbers.below(1200)).map(|_| numbers.byte()).collect();
        let most = [2, 5, 40, 600][numbers.below(4)];
        let mut lengths: Vec<usize> = (0..20).map(|_| numbers.below(most)).collect();
        lengths.push(1);
        assert_eq!(feed(&divided(&stream, &lengths)), feed(&[&stream]));
    }
}

/// The stream's front is stored, up to a whole block.
#[test]
fn a_single_run() {
    for (size, used) in [
        (0, 0),
        (1, 1),
        (511, 511),
        (512, 512),
        (513, 512),
        (70_000, 512),
    ] {
        let stream = stream(size);
        let came = feed(&[&stream]);
        assert_eq!(came.total, used);
        assert_eq!(came.complete_at, (used == 512).then_some(512));
        assert_eq!(came.store[..used], stream[..used]);
        assert!(is_filled(&came.store[used..]), "the store is touched");
        assert_eq!(came.intake, intake(used as u16, sum(&stream[..used])));
    }
}

/// Every number of bytes that it has, by runs that end around byte 512.
#[test]
fn the_completion_point() {
    for have in 0..=512_usize {
        let rest = 512 - have;
        for size in [0, 1, rest.saturating_sub(1), rest, rest + 1, rest + 600] {
            let run = stream(size);
            let mut store = vec![FILL; 512];
            let answer = intake_take(intake(have as u16, 9), &mut store, &run);
            let used = size.min(rest);
            let wanted = RunTaken {
                next: intake((have + used) as u16, (9 + sum(&run[..used])) % 256),
                used: used as u16,
                number: 0,
                complete: u8::from(have + used == 512),
            };
            assert_eq!(answer, wanted);
            assert_eq!(store[have..have + used], run[..used]);
            assert!(is_filled(&store[..have]) && is_filled(&store[have + used..]));
        }
    }
}

/// A complete intake leaves every run unused.
#[test]
fn a_complete_intake_uses_nothing() {
    let mut came = feed(&[&stream(512)]);
    for run in [&stream(1)[..], &[], &[0xFF; 700]] {
        let before = came.store.clone();
        let answer = intake_take(came.intake, &mut came.store, run);
        let wanted = RunTaken {
            next: came.intake,
            used: 0,
            number: 0,
            complete: 1,
        };
        assert_eq!(answer, wanted);
        assert_eq!(came.store, before);
    }
    let answer = intake_take(intake_empty(), &mut came.store, &[1, 2]);
    assert_eq!((answer.next, answer.used), (intake(2, 3), 2));
    assert_eq!((answer.complete, &came.store[..2]), (0, &[1, 2][..]));
}

#[test]
fn an_empty_intake() {
    assert_eq!(intake_empty(), intake(0, 0));
}

/// A sum handed in is counted on from, modulo 256, also by a run of no bytes.
#[test]
fn sums() {
    for handed_in in [0, 1, 255, 256, 257, 0x7FFF, 0xFFFF] {
        for (run, added) in [(&[][..], 0), (&[1], 1), (&[0xFF; 512], 512 * 255)] {
            let answer = intake_take(intake(0, handed_in), &mut [0; 512], run);
            let wanted = (u32::from(handed_in) + added) % 256;
            assert_eq!(u32::from(answer.next.sum), wanted);
        }
        let complete = intake_take(intake(512, handed_in), &mut [0; 512], &[7]);
        assert_eq!(complete.next, intake(512, handed_in % 256));
    }
    let block = text_block();
    assert_eq!(feed(&divided(&block, &[5])).intake.sum, sum(&block));
}

/// 1 for a claim that no store can hold, and for a store of another size; both
/// change nothing.
#[test]
fn wrong_claims_and_stores() {
    let claims = [(513, 512), (65_535, 512)];
    let stores = [(0, 0), (0, 511), (0, 513), (512, 511), (513, 513)];
    for (have, size) in claims.into_iter().chain(stores) {
        for run in [&[][..], &[1, 2, 3], &[4; 600]] {
            let mut store = vec![FILL; size];
            let given = intake(have, 0xABCD);
            let wanted = RunTaken {
                next: given,
                used: 0,
                number: 1,
                complete: 0,
            };
            assert_eq!(intake_take(given, &mut store, run), wanted);
            assert!(is_filled(&store), "the store is touched");
        }
    }
}

fn counted(count: usize) -> Counted {
    Counted { number: 0, count }
}

fn refused(number: u8) -> Counted {
    Counted { number, count: 0 }
}

/// An incomplete intake has no block.
#[test]
fn blocks_of_all_that_an_intake_can_have() {
    for have in 0..512 {
        assert_eq!(block_size(intake(have, 0xABCD), 512), counted(0));
    }
    for sum in [0, 1, 255, 65_535] {
        assert_eq!(block_size(intake(512, sum), 512), counted(512));
    }
    for have in 513..=65_535 {
        assert_eq!(block_size(intake(have, 0), 512), refused(1));
    }
}

#[test]
fn blocks_of_wrong_stores() {
    for have in [0, 1, 511, 512, 513, 65_535] {
        for size in [0, 1, 256, 511, 513, 1024, 65_536, 66_048, usize::MAX] {
            assert_eq!(block_size(intake(have, 0), size), refused(1));
        }
    }
}

/// The same INQUIRY with the block that an intake gives.
fn ask_intake(ask: &Ask, intake: Intake, store: &[u8]) -> (Inquiry, Vec<u8>, Vec<u8>) {
    let block = block_size(intake, store.len());
    assert_eq!(block.number, 0);
    ask.clone().block(&store[..block.count]).run()
}

const PAGES: [[u8; 6]; 6] = [
    [0x12, 0, 0x00, 2, 0x58, 0],
    [0x12, 1, 0x00, 2, 0x58, 0],
    [0x12, 1, 0x80, 2, 0x58, 0],
    [0x12, 1, 0x83, 2, 0x58, 0],
    [0x12, 1, 0x89, 2, 0x58, 0],
    [0x12, 1, 0xB0, 2, 0x58, 0],
];

/// A complete intake's block serves page 89h and the roll.
#[test]
fn inquiry_asks_the_intakes_block() {
    for command in PAGES {
        let plain = Ask::new(&command).block(&text_block());
        for ask in [plain.clone(), plain.packet(&[5, 0, 0, 1, 0x80])] {
            let complete = ask_intake(&ask, intake(512, 77), &text_block());
            assert_eq!(complete, ask.run());
            for have in [0, 1, 511] {
                let partial = ask_intake(&ask, intake(have, 77), &text_block());
                assert_eq!(partial, ask.clone().block(&[]).run());
            }
        }
    }
}

#[test]
fn page_89h_of_a_stream() {
    let block = text_block();
    let came = feed(&divided(&[&block[..], &[1, 2, 3]].concat(), &[100]));
    let ask = Ask::new(&PAGES[4]);
    let (answer, room, _) = ask_intake(&ask, came.intake, &came.store);
    assert_eq!((answer.number, answer.count), (0, 572));
    assert_eq!(room[60..572], block);
}

/// Gathers in room of this size; what is not written stays.
fn gathered(haves: &[u16], stores: &[u8], room: usize) -> (Counted, Vec<u8>) {
    let mut room = vec![FILL; room];
    let answer = gather(haves, stores, &mut room);
    (answer, room)
}

#[test]
fn the_blocks_of_complete_and_other_intakes() {
    let stores = [block_0(), text_block(), zero_block(), block_0()].concat();
    let wanted = [block_0(), zero_block(), block_0()].concat();
    for size in [1536, 1537, 1600, 2048] {
        let (answer, room) = gathered(&[512, 511, 512, 512], &stores, size);
        assert_eq!(answer, counted(1536));
        assert_eq!(room[..1536], wanted);
        assert!(is_filled(&room[1536..]), "room past the blocks is touched");
    }
}

/// An incomplete intake has no row.
#[test]
fn the_roll_of_what_was_gathered() {
    let stores = [block_0(), text_block(), zero_block(), block_0()].concat();
    let (answer, room) = gathered(&[512, 511, 512, 512], &stores, 2048);
    let mut rows = [77; 4];
    let rolled = roll(&room[..answer.count], &mut rows);
    assert_eq!((rolled.number, rolled.blocks, rolled.drives), (0, 3, 2));
    assert_eq!(rows, [1, 2, 1, 77]);
}

#[test]
fn nothing_to_gather() {
    assert_eq!(gathered(&[], &[], 0).0, counted(0));
    for size in [0, 8, 600] {
        let (answer, room) = gathered(&[0, 511, 1], &[9; 1536], size);
        assert_eq!(answer, counted(0));
        assert!(is_filled(&room));
    }
}

/// Gathering has no limit; the roll that follows takes 64 blocks.
#[test]
fn more_than_a_roll_takes() {
    for (complete, number) in [(64, 0), (65, 1), (200, 1)] {
        for others in [0, 1, 100] {
            let mut haves = vec![511; others];
            haves.extend(vec![512; complete]);
            let mut stores = vec![0x42; 512 * others];
            stores.extend(vec![0x41; 512 * complete]);
            let (answer, room) = gathered(&haves, &stores, 512 * complete);
            assert_eq!(answer, counted(512 * complete));
            assert!(room.iter().all(|&byte| byte == 0x41));
            assert_eq!(roll(&room, &mut [0; 200]).number, number);
        }
    }
}

/// 1 for each of its reasons, also with too little room; 8 after them. Nothing
/// is written.
#[test]
fn refused_gathering() {
    let stores = [0x41; 1536];
    let three = [512, 0, 512];
    for room in [0, 1023, 1024, 2000] {
        for (haves, stores) in [
            (&three[..], &stores[..1535]),
            (&three[..], &stores[..1024]),
            (&three[..], &[]),
            (&three[..2], &stores[..]),
            (&[], &stores[..512]),
            (&[], &stores[..1]),
            (&[512, 513, 0], &stores[..]),
            (&[0, 0, 65_535], &stores[..]),
        ] {
            let (answer, room) = gathered(haves, stores, room);
            assert_eq!(answer, refused(1));
            assert!(is_filled(&room));
        }
    }
    for size in [0, 512, 1023] {
        let (answer, room) = gathered(&three, &stores, size);
        assert_eq!(answer, refused(8));
        assert!(is_filled(&room));
    }
    assert_eq!(gathered(&three, &stores, 1024).0, counted(1024));
}

/// Whatever is lent, the intake's functions end (demand 1).
#[test]
fn every_intake_is_answered() {
    let mut numbers = Numbers(62);
    for _ in 0..5000 {
        let size = [512, 512, 512, numbers.below(1100)][numbers.below(4)];
        let mut store: Vec<u8> = (0..size).map(|_| numbers.byte()).collect();
        let have = [numbers.below(514), numbers.below(65_536)][numbers.below(2)] as u16;
        let given = intake(have, numbers.below(65_536) as u16);
        let right = size == 512 && have <= 512;
        assert_eq!(block_size(given, size).number, u8::from(!right));
        let (answer, _) = gathered(&[have], &store, 512);
        assert_eq!(answer.number, u8::from(!right));
        let run: Vec<u8> = (0..numbers.below(700)).map(|_| numbers.byte()).collect();
        let answer = intake_take(given, &mut store, &run);
        assert_eq!(answer.number, u8::from(!right));
        assert!(right && answer.next.sum < 256 || answer.next == given);
    }
}
