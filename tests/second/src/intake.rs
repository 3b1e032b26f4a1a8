//! The intake (RULES 12): IDENTIFY data taken as it comes off the wire.

use crate::identify::is_damaged;
use crate::{fault, refusal};

/// An intake with so many bytes is complete.
const BLOCK: usize = 512;

/// An intake without its store, which the caller keeps: how many of the
/// store's bytes it has, and their sum. The store's bytes past them mean
/// nothing.
#[derive(Clone, Copy, Debug, Default, PartialEq, Eq)]
pub struct Intake {
    pub have: u16,
    pub sum: u16,
}

/// What taking a run came to.
#[derive(Clone, Copy, Debug, PartialEq, Eq)]
pub struct RunTaken {
    pub next: Intake,
    pub used: u16,
    pub number: u8,
    pub complete: u8,
}

/// How many bytes, from the front, are blocks.
#[derive(Clone, Copy, Debug, PartialEq, Eq)]
pub struct Counted {
    pub number: u8,
    pub count: usize,
}

fn counted(count: usize) -> Counted {
    Counted {
        number: refusal::ACCEPTED,
        count,
    }
}

fn refused(number: u8) -> Counted {
    Counted { number, count: 0 }
}

/// An intake that has nothing.
pub fn intake_empty() -> Intake {
    Intake { have: 0, sum: 0 }
}

/// Takes a run's front, as much as the intake still lacks, and tells how much
/// that was.
pub fn intake_take(intake: Intake, store: &mut [u8], run: &[u8]) -> RunTaken {
    if !is_right(intake.have, store.len()) || fault::planted("intake-refuses-all") {
        return RunTaken {
            next: intake,
            used: 0,
            number: refusal::SIZE,
            complete: 0,
        };
    }
    let have = had(intake);
    let used = run.len().min(BLOCK - have);
    write(store, have, &run[..used]);
    let next = Intake {
        have: (have + used) as u16,
        sum: counted_on(intake.sum, summed(run, used)),
    };
    RunTaken {
        next,
        used: reported(run, used),
        number: refusal::ACCEPTED,
        complete: u8::from(usize::from(next.have) == BLOCK),
    }
}

/// Else 1: the store could not hold what the intake says it has.
fn is_right(have: u16, store_size: usize) -> bool {
    store_size == BLOCK && usize::from(have) <= BLOCK
}

/// What the intake has. The planted fault begins again at a complete one,
/// which is to use nothing.
fn had(intake: Intake) -> usize {
    let have = usize::from(intake.have);
    if fault::planted("intake-takes-after-completion") && have == BLOCK {
        return 0;
    }
    have
}

/// Behind what the intake has; no other byte of the store changes.
fn write(store: &mut [u8], have: usize, bytes: &[u8]) {
    let start = if fault::planted("intake-stores-at-the-start") {
        0
    } else {
        have
    };
    if !fault::planted("intake-writes-nothing") {
        store[start..start + bytes.len()].copy_from_slice(bytes);
    }
}

/// The bytes that are summed: those used.
fn summed(run: &[u8], used: usize) -> &[u8] {
    if fault::planted("intake-sums-past-512") {
        return run;
    }
    &run[..used]
}

/// The old sum, whatever it was, and these bytes, modulo 256.
fn counted_on(sum: u16, bytes: &[u8]) -> u16 {
    let total = bytes
        .iter()
        .fold(u64::from(sum), |total, &byte| total + u64::from(byte));
    (total % 256) as u16
}

fn reported(run: &[u8], used: usize) -> u16 {
    if fault::planted("intake-reports-the-whole-run") {
        return run.len() as u16;
    }
    used as u16
}

/// How many bytes of its store are an intake's block: all or none. The caller
/// lends them to INQUIRY.
pub fn block_size(intake: Intake, store_size: usize) -> Counted {
    let have = usize::from(intake.have);
    let asked_to_be_complete = fault::planted("block-refuses-until-complete") && have != BLOCK;
    if !is_right(intake.have, store_size) || asked_to_be_complete {
        return refused(refusal::SIZE);
    }
    if fault::planted("block-asks-the-carried-sum") && have == BLOCK && intake.sum != 0 {
        return refused(refusal::DAMAGED);
    }
    if fault::planted("block-of-what-it-has") {
        return counted(have);
    }
    let nearly = fault::planted("intake-gives-a-partial-block") && have == BLOCK - 1;
    counted(if have == BLOCK || nearly { BLOCK } else { 0 })
}

/// Gathers the blocks of a run of intakes at the front of the room, for the
/// caller to lend to the roll. A refusal writes nothing.
pub fn gather(haves: &[u16], stores: &[u8], room: &mut [u8]) -> Counted {
    let claims_too_much = |&have: &u16| usize::from(have) > BLOCK;
    if stores.len() != BLOCK * haves.len() || haves.iter().any(claims_too_much) {
        return refused(refusal::SIZE);
    }
    let blocks = blocks_of(haves, stores);
    if one_is_damaged(&blocks, stores, room.len()) {
        return refused(refusal::DAMAGED);
    }
    if fault::planted("gather-limits-to-64") && blocks.len() > 64 * BLOCK {
        return refused(refusal::SIZE);
    }
    if room.len() < blocks.len() {
        spoil_refused(&blocks, room);
        return refused(refusal::ROOM);
    }
    room[..blocks.len()].copy_from_slice(&blocks);
    spoil(haves, blocks.len(), room)
}

/// 18: the roll would refuse them. A store whose intake is not complete is no
/// block, and what is in it is not asked. And the planted faults of that.
fn one_is_damaged(blocks: &[u8], stores: &[u8], room: usize) -> bool {
    let asked = if fault::planted("damage-of-incomplete-stores") {
        stores
    } else {
        blocks
    };
    let unasked = fault::planted("gather-takes-damage")
        || (fault::planted("gather-asks-damage-after-room") && room < blocks.len());
    asked.chunks(BLOCK).any(is_damaged) && !unasked
}

/// The complete intakes' blocks, one behind the other.
fn blocks_of(haves: &[u16], stores: &[u8]) -> Vec<u8> {
    let mut blocks = Vec::new();
    for (store, &have) in stores.chunks(BLOCK).zip(haves) {
        let held = fault::planted("gather-takes-incomplete-stores") && have > 0;
        if usize::from(have) == BLOCK || held {
            blocks.extend(store);
        }
    }
    blocks
}

/// The planted fault of a room that is too small: as much as fits is written.
fn spoil_refused(blocks: &[u8], room: &mut [u8]) {
    if fault::planted("gather-fills-a-small-room") {
        room.copy_from_slice(&blocks[..room.len()]);
    }
}

/// The answer, and its planted faults.
fn spoil(haves: &[u16], size: usize, room: &mut [u8]) -> Counted {
    if fault::planted("gather-clears-the-rest") {
        room[size..].fill(0);
    }
    if fault::planted("gather-counts-blocks") {
        return counted(size / BLOCK);
    }
    if fault::planted("gather-counts-every-store") {
        return counted(room.len().min(BLOCK * haves.len()));
    }
    counted(size)
}
