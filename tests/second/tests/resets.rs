//! A reset over a pending order: when it is taken, what the record holds then,
//! and what its completion tells.

mod common;

use common::*;
use second::{Ended, Order, Record};

/// A command that resets the drive: hard or soft, with 14 quiet seconds. What a
/// reset does not read is all ones.
fn reset(protocol: u8) -> Pass {
    let mut command = [0xFF; 16];
    command[0] = 0x85;
    command[1] = 0xE1 | protocol << 1;
    command[15] = 0xFB;
    Pass::new(&command)
}

fn reset_order(protocol: u8) -> Order {
    Order {
        protocol,
        quiet_seconds: 14,
        sectors_per_block: 1,
        ..Order::default()
    }
}

/// A record whose order has this protocol, and else numbers that no command
/// makes.
fn record_of(state: u32, protocol: u8) -> Record {
    let mut record = some_record();
    record.state = state;
    record.order.protocol = protocol;
    record
}

/// A reset over an order that has this protocol and asks for registers.
fn both(older: u8) -> Record {
    Record {
        state: 2,
        order: reset_order(1),
        older: record_of(1, older).order,
    }
}

/// Numbers that are one order.
fn one_order() -> impl Iterator<Item = u32> {
    (3..=255).chain([1, 0x0100, 0x0102, 0x0002_0000, 0x8000_0002, u32::MAX])
}

/// The reset is taken over the order that the record holds, which goes under it
/// byte for byte.
fn taken_over(given: Record, protocol: u8) -> Record {
    let wanted = Record {
        state: 2,
        order: reset_order(protocol),
        older: given.order,
    };
    let mut pass = reset(protocol).declared(0);
    pass.record = given;
    for pass in pass.in_each_form() {
        let (taken, record, sense) = pass.run();
        assert_eq!((taken.number, taken.status), (0, 0xFF));
        assert_eq!(taken.order, reset_order(protocol));
        assert_eq!(record, wanted);
        assert!(is_filled(&sense), "sense is touched");
    }
    wanted
}

fn refused(pass: Pass, record: Record) {
    let mut pass = pass;
    pass.record = record;
    pass.refused(10);
}

/// A hung IDENTIFY DEVICE, a reset, its completion, and the next order.
#[test]
fn a_hung_order_is_got_past() {
    let (_, hung, _) = Pass::new(&C6).declared(512).run();
    let mut record = taken_over(hung, 1);
    let (answer, sense) = end(&mut record, &REGISTERS, 30);
    let lost = Ended {
        lost: 1,
        lost_protocol: 4,
        ..ended(0, 0x00)
    };
    assert_eq!((answer, record), (lost, Record::default()));
    assert!(is_filled(&sense));
    assert_eq!(end(&mut record, &REGISTERS, 30).0, ended(15, 0xFF));
    assert_eq!(Pass::new(&C6).declared(512).order(), hung.order);
}

#[test]
fn a_reset_is_taken_over_an_order() {
    for state in one_order() {
        for older in [2, 3, 4, 9, 15, 16, 17, 255] {
            for protocol in [0, 1] {
                taken_over(record_of(state, older), protocol);
            }
        }
    }
}

#[test]
fn a_second_reset_is_busy() {
    for protocol in [0, 1] {
        for older in [0, 1] {
            for state in [1, 2, 3, 255] {
                refused(reset(protocol), record_of(state, older));
            }
        }
        for older in 0..=255 {
            refused(reset(protocol), both(older));
            refused(reset(protocol), record_of(2, older));
        }
    }
}

#[test]
fn no_other_order_is_taken_over_anything() {
    for record in [record_of(1, 0), both(4), record_of(2, 4), record_of(7, 255)] {
        for (protocol, byte_2) in [(3, 0), (4, 0x0E), (5, 6), (6, 6), (8, 0), (9, 0)] {
            let pass = Pass::new(&C6).byte(1, protocol << 1).byte(2, byte_2);
            pass.order();
            refused(pass, record);
        }
    }
}

/// 4 and 9 come before 10, and a reset over an order is no way around 4.
#[test]
fn the_place_of_10_is_kept() {
    for record in [record_of(1, 4), both(4)] {
        let mut pass = reset(0).byte(15, 0x04);
        pass.record = record;
        pass.refused(4);
        let mut pass = Pass::new(&C6).byte(1, 0x04);
        pass.record = record;
        pass.refused(9);
    }
}

#[test]
fn protocol_15_leaves_every_record() {
    for state in one_order().chain([0, 2]) {
        let mut pass = Pass::new(&C6).byte(1, 0x1E);
        pass.record = record_of(state, 4);
        let (taken, record, _) = pass.run();
        assert_eq!((taken.number, taken.status), (0, 0x02));
        assert_eq!((taken.order, record), (Order::default(), pass.record));
    }
}

/// The older order's CK_COND and EXTEND say nothing of the reset: registers are
/// told for an error alone, and without their upper bytes.
#[test]
fn the_reset_is_what_is_answered() {
    for older in [0, 1, 4, 15, 255] {
        ends(both(older), 0x50, None);
        ends(both(older), 0x51, Some((0x0B, 0x00, 0)));
    }
}

/// A record from elsewhere may have them in its reset, where they count.
#[test]
fn the_reset_has_its_own_flags() {
    for (ck_cond, extend) in [(1, 0), (1, 1), (0, 1), (0x80, 0xFE)] {
        let mut record = both(4);
        (record.older.ck_cond, record.older.extend) = (0, 0);
        (record.order.ck_cond, record.order.extend) = (ck_cond, extend);
        let extend = u8::from(extend != 0);
        let told = Some((0x01, 0x1D, extend)).filter(|_| ck_cond != 0);
        ends(record, 0x50, told);
        ends(record, 0x51, Some((0x0B, 0x00, extend)));
    }
}

/// Both end: with this status of the drive's, and with sense data of this key,
/// ASCQ and EXTEND or with none.
fn ends(given: Record, status: u8, told: Option<(u8, u8, u8)>) {
    let registers = [1, 2, 3, 4, 5, 6, 7, 8, 9, 10, status];
    let mut record = given;
    let (answer, sense) = end(&mut record, &registers, 30);
    let lost = Ended {
        lost: 1,
        lost_protocol: given.older.protocol,
        ..ended(0, if told.is_some() { 0x02 } else { 0x00 })
    };
    assert_eq!((answer, record), (lost, Record::default()));
    if let Some((key, ascq, extend)) = told {
        let upper = |byte| byte * extend;
        let mut wanted = vec![0x72, key, 0, ascq, 0, 0, 0, 0x0E, 0x09, 0x0C, extend];
        wanted.extend([1, upper(2), 3, upper(4), 5, upper(6), 7, upper(8), 9, 10]);
        wanted.push(status);
        check_sense(&wanted, &sense);
    } else {
        assert!(is_filled(&sense));
    }
}

/// Nothing is lost where one order is pending, a reset too, nor by a refusal.
#[test]
fn a_loss_is_told_only_where_one_was() {
    for state in one_order().chain([0]) {
        for older in [0, 1, 4, 255] {
            let mut record = record_of(state, older);
            record.order.ck_cond = 0;
            let (answer, _) = end(&mut record, &REGISTERS, 30);
            let wanted = if state == 0 { (15, 0xFF) } else { (0, 0x00) };
            assert_eq!(answer, ended(wanted.0, wanted.1));
        }
    }
    let (answer, _) = end(&mut both(4), &[0; 10], 30);
    assert_eq!(answer, ended(1, 0xFF));
}

/// An order that is taken with nothing pending leaves zeros in the place of an
/// older one.
#[test]
fn an_order_alone_has_no_older_one() {
    for pass in [Pass::new(&C6), reset(1)] {
        let mut pass = pass;
        pass.record = record_of(0, 4);
        let order = pass.order();
        let (_, record, _) = pass.run();
        let older = Order::default();
        assert_eq!(
            record,
            Record {
                state: 1,
                order,
                older
            }
        );
    }
}
