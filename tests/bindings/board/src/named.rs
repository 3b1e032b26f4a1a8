//! The numbers of what the wrapper names, by the rule book: RULES 2, 3, 8.3, 9
//! and 15.

use piongseut::{Direction, Edition, Field, Form, Order, Protocol, Refusal, Status};

pub fn refusal(refusal: Refusal) -> u8 {
    match refusal {
        Refusal::Size => 1,
        Refusal::Short => 2,
        Refusal::Opcode => 3,
        Refusal::Field => 4,
        Refusal::Page => 5,
        Refusal::NoBlock => 6,
        Refusal::Unusable => 7,
        Refusal::Room => 8,
        Refusal::Protocol => 9,
        Refusal::Pending => 10,
        Refusal::TLength => 11,
        Refusal::TDir => 12,
        Refusal::LengthZero => 13,
        Refusal::AboveDeclared => 14,
        Refusal::NothingPending => 15,
        Refusal::NotAPage => 16,
        Refusal::Census => 17,
        Refusal::Damaged => 18,
        Refusal::Port => 19,
        Refusal::ServiceAction => 20,
        Refusal::Capture => 21,
        Refusal::Packet => 22,
        Refusal::Order => 23,
        Refusal::Other(number) => panic!("refusal {number}"),
    }
}

pub fn status(status: Status) -> u8 {
    match status {
        Status::Good => 0x00,
        Status::CheckCondition => 0x02,
        Status::Busy => 0x08,
        Status::None => 0xFF,
        Status::Other(number) => panic!("status {number}"),
    }
}

/// A record from elsewhere may hold any number.
pub fn protocol(protocol: Protocol) -> u8 {
    match protocol {
        Protocol::AtaHardwareReset => 0,
        Protocol::Srst => 1,
        Protocol::NonData => 3,
        Protocol::PioDataIn => 4,
        Protocol::PioDataOut => 5,
        Protocol::Dma => 6,
        Protocol::ExecuteDeviceDiagnostic => 8,
        Protocol::DeviceReset => 9,
        Protocol::UdmaDataIn => 10,
        Protocol::UdmaDataOut => 11,
        Protocol::ReturnResponseInformation => 15,
        Protocol::Other(number) => number,
    }
}

pub fn protocol_of(number: u8) -> Protocol {
    match number {
        0 => Protocol::AtaHardwareReset,
        1 => Protocol::Srst,
        3 => Protocol::NonData,
        4 => Protocol::PioDataIn,
        5 => Protocol::PioDataOut,
        6 => Protocol::Dma,
        8 => Protocol::ExecuteDeviceDiagnostic,
        9 => Protocol::DeviceReset,
        10 => Protocol::UdmaDataIn,
        11 => Protocol::UdmaDataOut,
        15 => Protocol::ReturnResponseInformation,
        other => Protocol::Other(other),
    }
}

fn direction(direction: Direction) -> u8 {
    match direction {
        Direction::None => 0,
        Direction::FromDrive => 1,
        Direction::ToDrive => 2,
        Direction::Other(number) => panic!("direction {number}"),
    }
}

pub fn direction_of(number: u8) -> Direction {
    match number {
        0 => Direction::None,
        1 => Direction::FromDrive,
        2 => Direction::ToDrive,
        other => Direction::Other(other),
    }
}

pub fn tag(field: Field) -> u8 {
    match field {
        Field::Page00 => 0x00,
        Field::Standard => 0x01,
        Field::Page80 => 0x80,
        Field::Page83 => 0x83,
        Field::Page89 => 0x89,
        Field::Other(tag) => panic!("tag {tag:02X}h"),
    }
}

/// Every number that is none of the others states no form.
pub fn form_of(number: u8) -> Form {
    match number {
        1 => Form::Fixed,
        2 => Form::Descriptor,
        _ => Form::Unstated,
    }
}

/// Every number but 2 names the first.
pub fn edition_of(number: u8) -> Edition {
    match number {
        2 => Edition::Later,
        _ => Edition::First,
    }
}

/// An order as its 28 bytes, field by field.
pub fn order(order: &Order) -> Vec<u8> {
    let mut bytes = order.length.to_le_bytes().to_vec();
    bytes.extend(order.auxiliary.to_le_bytes());
    for number in [
        order.features,
        order.count,
        order.lba_low,
        order.lba_mid,
        order.lba_high,
        order.quiet_seconds,
        order.sectors_per_block,
    ] {
        bytes.extend(number.to_le_bytes());
    }
    bytes.extend([order.device, order.command, protocol(order.protocol)]);
    bytes.extend([order.ck_cond, order.extend].map(u8::from));
    bytes.push(direction(order.direction));
    bytes
}
