//! Sense data in both forms (RULES 10), of refusals, completions and protocol
//! 15. That every refusal is told so in every form is checked where each row is.

mod common;

use common::*;
use second::{Order, Record};

/// Registers whose eleven bytes all differ, with an error in the status.
const LEFT: [u8; 11] = [
    0x84, 0xF1, 0x12, 0xF3, 0x14, 0xF5, 0x16, 0xF7, 0x18, 0xD9, 0x71,
];

fn pending(ck_cond: u8, extend: u8) -> Record {
    let order = Order {
        ck_cond,
        extend,
        ..some_record().order
    };
    Record {
        state: 1,
        order,
        ..Record::default()
    }
}

/// The sense room after a completion in this form, which is CHECK CONDITION.
fn told(form: u8, record: Record, registers: [u8; 11]) -> Vec<u8> {
    let mut record = record;
    let (answer, sense) = end_in_form(form, &mut record, &registers, 30);
    let (number, status) = (0, 0x02);
    assert_eq!(answer, ended(number, status));
    assert_eq!(record, Record::default());
    sense
}

/// Stated, and where none is.
#[test]
fn c12_in_the_fixed_form() {
    let (_, record, _) = Pass::new(&C12).declared(0).run();
    let wanted = [
        0x70, 0x00, 0x01, 0x00, 0x50, 0x00, 0xFF, 0x0A, 0x00, 0x00, 0x00, 0x00, 0x00, 0x1D, 0x00,
        0x00, 0x00, 0x00,
    ];
    for form in [1, 0, 3] {
        check_sense(&wanted, &told(form, record, REGISTERS));
    }
}

#[test]
fn every_register_has_its_place() {
    let with_extend = [
        0x70, 0x00, 0x0B, 0x84, 0x71, 0xD9, 0x12, 0x0A, 0xE0, 0x14, 0x16, 0x18, 0x00, 0x00, 0x00,
        0x00, 0x00, 0x00,
    ];
    check_sense(&with_extend, &told(1, pending(0, 1), LEFT));
    check_sense(&with_extend, &told(1, pending(1, 0x80), LEFT));
    let mut without = with_extend;
    without[8] = 0x00;
    check_sense(&without, &told(1, pending(0, 0), LEFT));
}

/// Bit 6 is for the count, bit 5 for each of three LBA registers.
#[test]
fn flags_of_each_upper_byte() {
    for bit in 0..8 {
        for (at, flags) in [(1, 0xC0), (3, 0xA0), (5, 0xA0), (7, 0xA0)] {
            let mut registers = [0; 11];
            registers[at] = 1 << bit;
            assert_eq!(told(1, pending(1, 1), registers)[8], flags);
            assert_eq!(told(1, pending(1, 0), registers)[8], 0x00);
        }
    }
    let lower = [0xFF, 0, 0xFF, 0, 0xFF, 0, 0xFF, 0, 0xFF, 0xFF, 0xDE];
    assert_eq!(told(1, pending(1, 1), lower)[8], 0x80);
    assert_eq!(told(1, pending(1, 0), lower)[8], 0x00);
}

/// EXTEND is zero, whatever the command says.
#[test]
fn protocol_15_in_the_fixed_form() {
    let mut command = [0xFF; 16];
    command[..2].copy_from_slice(&[0x85, 0x1F]);
    command[15] = 0x00;
    let wanted = [
        0x70, 0x00, 0x01, 0x84, 0x71, 0xD9, 0x12, 0x0A, 0x00, 0x14, 0x16, 0x18, 0x00, 0x1D, 0x00,
        0x00, 0x00, 0x00,
    ];
    for pass in [Pass::new(&command), Pass::new(&command).pending()] {
        let pass = pass.registers(&LEFT).form(1);
        let (taken, record, sense) = pass.run();
        assert_eq!((taken.number, taken.status), (0, 0x02));
        assert_eq!((taken.order, record), (Order::default(), pass.record));
        check_sense(&wanted, &sense);
    }
}

/// 2 states descriptor; what every other number comes to is fixed.
#[test]
fn every_number_of_a_form() {
    let report = [0xA1, 0x1E, 0, 0, 0, 0, 0, 0, 0, 0, 0, 0];
    for form in 0..=0xFF {
        let (code, sizes) = if form == 2 {
            (0x72, [8, 22])
        } else {
            (0x70, [18, 18])
        };
        let senses = [
            (Ask::new(&[]).form(form).run().2, sizes[0]),
            (Pass::new(&[]).form(form).run().2, sizes[0]),
            (Pass::new(&report).form(form).run().2, sizes[1]),
            (told(form, pending(1, 0), REGISTERS), sizes[1]),
        ];
        for (sense, size) in senses {
            assert_eq!(sense[0], code);
            assert_eq!(usize::from(sense[7]), size - 8);
            assert!(!sense[..size].contains(&FILL) && is_filled(&sense[size..]));
        }
    }
}

/// 18 bytes are written, and 22 are asked for (RULES 1).
#[test]
fn the_fixed_form_asks_for_as_much_room() {
    for size in [17, 18, 19, 21] {
        Ask::new(&[]).sense(size).refused(1);
        Pass::new(&[]).sense(size).refused(1);
        let mut record = pending(1, 0);
        let (answer, sense) = end_in_form(1, &mut record, &REGISTERS, size);
        assert_eq!(answer, ended(1, 0xFF));
        assert_eq!(record, pending(1, 0));
        assert!(is_filled(&sense));
    }
    assert_eq!(
        end_in_form(1, &mut pending(1, 0), &REGISTERS, 22).0.number,
        0
    );
}

/// An order is completed in the form that its completion states, whatever its
/// command stated.
#[test]
fn the_record_holds_no_form() {
    for pass in Pass::new(&C12).in_each_form() {
        let (_, record, _) = pass.run();
        for form in FORMS {
            let code = if form == 2 { 0x72 } else { 0x70 };
            assert_eq!(told(form, record, REGISTERS)[0], code);
        }
    }
}
