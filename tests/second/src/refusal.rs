//! The numbers that come back (RULES 2) and the table of refusals (RULES 3).

use crate::fault;

pub const GOOD: u8 = 0x00;
pub const CHECK_CONDITION: u8 = 0x02;
pub const BUSY: u8 = 0x08;
/// Where a call has no status.
pub const NO_STATUS: u8 = 0xFF;

pub const ACCEPTED: u8 = 0;
/// What is lent has a wrong size.
pub const SIZE: u8 = 1;
/// The command is cut short.
pub const SHORT: u8 = 2;
/// It is a command for someone else.
pub const OPCODE: u8 = 3;
/// A field asks for what the board never does.
pub const FIELD: u8 = 4;
/// There is no such page.
pub const PAGE: u8 = 5;
/// A block is needed, and the drive gave none.
pub const NO_BLOCK: u8 = 6;
/// A packet drive's list of pages cannot be trusted.
pub const UNUSABLE: u8 = 7;
/// The answer does not fit the room.
pub const ROOM: u8 = 8;
/// The board does not speak this protocol.
pub const PROTOCOL: u8 = 9;
/// The record is taken.
pub const PENDING: u8 = 10;
/// A length is given without data, or none with it.
pub const T_LENGTH: u8 = 11;
/// The data would go the other way.
pub const T_DIR: u8 = 12;
/// There would be no data.
pub const LENGTH_ZERO: u8 = 13;
/// There would be more data than the host takes.
pub const ABOVE_DECLARED: u8 = 14;
/// There is no order to complete.
pub const NOTHING_PENDING: u8 = 15;
/// No drive has this page 83h.
pub const NOT_A_PAGE: u8 = 16;
/// The census cannot count on: it is full, or no blocks make it.
pub const CENSUS: u8 = 17;
/// The block's bytes are not those that the drive sent.
pub const DAMAGED: u8 = 18;
/// There is no such port.
pub const PORT: u8 = 19;
/// It is another command of the opcode 7Fh.
pub const SERVICE_ACTION: u8 = 20;
/// These bytes are no fields one behind the other, or lack page 89h.
pub const CAPTURE: u8 = 21;
/// Of a packet drive nothing is judged.
pub const PACKET: u8 = 22;
/// No command makes the order.
pub const ORDER: u8 = 23;

/// The column Status of the table.
pub fn status(number: u8) -> u8 {
    match number {
        SIZE | ROOM | NOTHING_PENDING | NOT_A_PAGE | CENSUS | DAMAGED => NO_STATUS,
        CAPTURE | PACKET | ORDER => NO_STATUS,
        PENDING => BUSY,
        PORT if fault::planted("ports-number-without-status") => NO_STATUS,
        _ => CHECK_CONDITION,
    }
}

/// The column Key ASC ASCQ; None where a row has no key.
pub fn key_asc_ascq(number: u8) -> Option<[u8; 3]> {
    match number {
        SHORT => Some([0x05, 0x24, 0x00]),
        OPCODE => Some([0x05, 0x20, 0x00]),
        FIELD => Some([0x05, 0x24, 0x00]),
        PAGE => Some([0x05, 0x24, 0x00]),
        NO_BLOCK => Some([0x02, 0x04, 0x00]),
        UNUSABLE => Some([0x0B, 0x00, 0x00]),
        PROTOCOL => Some([0x05, 0x24, 0x00]),
        T_LENGTH => Some([0x05, 0x24, 0x00]),
        T_DIR => Some([0x05, 0x24, 0x00]),
        LENGTH_ZERO => Some([0x05, 0x24, 0x00]),
        ABOVE_DECLARED => Some([0x05, 0x24, 0x00]),
        PORT if fault::planted("ports-number-without-sense") => None,
        PORT => Some([0x05, 0x24, 0x00]),
        SERVICE_ACTION => Some([0x05, 0x24, 0x00]),
        DAMAGED if fault::planted("damage-told-in-sense") => Some([0x0B, 0x00, 0x00]),
        _ => None,
    }
}
