//! Whatever is lent, every function ends (demand 1), and a refusal touches only
//! the sense bytes of its row.

mod common;

use common::*;
use second::{read_page83, roll};

fn bytes(numbers: &mut Numbers, size: usize) -> Vec<u8> {
    (0..size).map(|_| numbers.byte()).collect()
}

/// Mostly a right size, sometimes any size.
fn piece(numbers: &mut Numbers, right: &[usize]) -> Vec<u8> {
    let size = if numbers.below(8) == 0 {
        numbers.below(600)
    } else {
        right[numbers.below(right.len())]
    };
    bytes(numbers, size)
}

#[test]
fn inquiry_takes_all() {
    let mut numbers = Numbers(11);
    for _ in 0..20_000 {
        let mut ask = Ask::new(&piece(&mut numbers, &[6, 6, 7, 5, 0]));
        if numbers.below(8) > 0 && !ask.command.is_empty() {
            ask.command[0] = 0x12;
        }
        ask.block = piece(&mut numbers, &[0, 512]);
        ask.signature = piece(&mut numbers, &[20]);
        if numbers.below(2) == 0 && ask.signature.len() > 6 {
            ask.signature[5..7].copy_from_slice(&[0x14, 0xEB]);
        }
        ask.texts = piece(&mut numbers, &[28]);
        ask.reply = piece(&mut numbers, &[0, 3, 4, 36]);
        ask.room = numbers.below(600);
        ask.sense = 22 - numbers.below(20) / 19;
        let (answer, room, sense) = ask.run();
        if answer.number != 0 {
            ask.refused(answer.number);
        } else {
            assert!(is_filled(&sense));
            assert!(answer.count <= [ask.reply.len(), room.len()][usize::from(answer.shown)]);
            let allocation = u16::from_be_bytes([ask.command[3], ask.command[4]]);
            assert!(answer.count <= usize::from(allocation));
        }
    }
}

#[test]
fn orders_and_completion_take_all() {
    let mut numbers = Numbers(12);
    for _ in 0..20_000 {
        let mut pass = Pass::new(&piece(&mut numbers, &[12, 16, 16, 11, 0]));
        if numbers.below(8) > 0 && !pass.command.is_empty() {
            pass.command[0] = [0xA1, 0x85][numbers.below(2)];
        }
        pass.registers = piece(&mut numbers, &[11]);
        pass.declared = [0, 511, 70_000, u32::MAX][numbers.below(4)];
        pass.sense = 22 - numbers.below(20) / 19;
        if numbers.below(4) == 0 {
            pass = pass.pending();
        }
        let (taken, mut record, _) = pass.run();
        if taken.number != 0 {
            pass.refused(taken.number);
        }
        let before = record;
        let form = numbers.byte();
        let (ended, sense) = end_in_form(form, &mut record, &pass.registers, pass.sense);
        if ended.number != 0 {
            assert_eq!(record, before);
            check_refusal_sense(ended.number, form, &sense);
        }
    }
}

#[test]
fn pages_and_rolls_take_all() {
    let mut numbers = Numbers(13);
    for _ in 0..2000 {
        let block = piece(&mut numbers, &[512]);
        let mut room = vec![FILL; numbers.below(100)];
        let written = write_without_ports(&block, &mut room);
        assert!(is_filled(&room[written.count..]));
        read_page83(&piece(&mut numbers, &[16, 76]));
        let blocks = piece(&mut numbers, &[0, 512, 1536]);
        let mut rows = vec![77; numbers.below(6)];
        let answer = roll(&blocks, &mut rows);
        assert!(rows[usize::from(answer.blocks)..]
            .iter()
            .all(|&row| row == 77));
    }
}
