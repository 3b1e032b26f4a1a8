//! A call of one of the board's functions: its bytes on the way to the board,
//! and what the second program answers, as the board would write it.

use second::{Census, Counted, Ended, Inquiry, Intake, Order, Ports, Record, Roll, Taken};

pub const EMPTY: u8 = 0;
pub const INQUIRY: u8 = 1;
pub const SUBMIT: u8 = 2;
pub const COMPLETE: u8 = 3;
pub const WRITE: u8 = 4;
pub const READ: u8 = 5;
pub const ROLL: u8 = 6;
pub const INTAKE_EMPTY: u8 = 7;
pub const INTAKE_TAKE: u8 = 8;
/// The INQUIRY that asks an intake's block: two functions, one after the other.
pub const INTAKE_INQUIRY: u8 = 9;
/// The roll of what was gathered of intakes: two functions, too.
pub const INTAKE_ROLL: u8 = 10;
pub const CENSUS_EMPTY: u8 = 11;
/// The census is lent as a piece, as 26 numbers, and goes by value.
pub const CENSUS_FEED: u8 = 12;
/// The record's order is built, and the command submitted with nothing pending
/// and the order's length declared: two functions, too.
pub const BUILD: u8 = 13;
pub const CHECK: u8 = 14;

pub const NAMES: [&str; 15] = [
    "empty",
    "inquiry",
    "submit",
    "complete",
    "write_page83",
    "read_page83",
    "roll",
    "intake_empty",
    "intake_take",
    "intake_block, inquiry",
    "intake_gather, roll",
    "census_empty",
    "census_feed",
    "build, submit",
    "check",
];

/// The lent pieces of each function, in the header's order.
pub const PIECES: [&[&str]; 15] = [
    &[],
    &[
        "command",
        "block",
        "signature",
        "texts",
        "reply",
        "address",
        "room",
        "sense",
    ],
    &["command", "registers", "block", "sense"],
    &["registers", "sense"],
    &["block", "address", "room"],
    &["page"],
    &["blocks", "rows"],
    &[],
    &["store", "run"],
    &[
        "store",
        "command",
        "signature",
        "texts",
        "reply",
        "address",
        "room",
        "sense",
    ],
    &["haves", "stores", "room", "rows"],
    &[],
    &["census", "block"],
    &[],
    &["capture"],
];

/// The pieces of a function that are 16-bit numbers.
pub fn sixteen_bits(function: u8) -> &'static [usize] {
    match function {
        ROLL => &[1],
        INTAKE_ROLL => &[0, 3],
        CENSUS_FEED => &[0],
        _ => &[],
    }
}

/// Set in the function's byte: the board uses the record that it kept.
const KEPT: u8 = 0x80;

#[derive(Clone, Debug)]
pub struct Call {
    pub function: u8,
    /// Whether the board uses the record that its last call left.
    pub kept: bool,
    pub declared: u32,
    /// The form of sense data that the caller states; None leaves it open, and
    /// the call is made in any.
    pub form: Option<u8>,
    /// The edition that the caller of submit states; None likewise.
    pub edition: Option<u8>,
    pub record: Record,
    pub intake: Intake,
    /// The ports that page 83h is to tell; the address is a piece.
    pub ports: Ports,
    pub pieces: Vec<Vec<u8>>,
}

/// What a call states, where it is made.
#[derive(Clone, Copy)]
pub struct Stated {
    pub form: u8,
    pub edition: u8,
}

/// What the second program said, besides the bytes.
#[derive(Clone, Copy)]
pub struct Said {
    pub number: u8,
    pub record: Record,
    /// Of a completion, whether an order was lost, and its protocol.
    pub lost: (u8, u8),
}

impl Call {
    pub fn new(function: u8, pieces: Vec<Vec<u8>>) -> Call {
        Call {
            function,
            kept: false,
            declared: 0,
            form: None,
            edition: None,
            record: Record::default(),
            intake: Intake::default(),
            ports: Ports::default(),
            pieces,
        }
    }

    pub fn record(mut self, record: Record) -> Call {
        self.record = record;
        self
    }

    pub fn intake(mut self, intake: Intake) -> Call {
        self.intake = intake;
        self
    }

    /// The call with these ports, of INQUIRY or of the writer.
    pub fn ports(mut self, ports: Ports, address: &[u8]) -> Call {
        let at = if self.function == WRITE { 1 } else { 5 };
        self.ports = ports;
        self.pieces[at] = address.to_vec();
        self
    }

    pub fn declared(mut self, declared: u32) -> Call {
        self.declared = declared;
        self
    }

    pub fn form(mut self, form: u8) -> Call {
        self.form = Some(form);
        self
    }

    pub fn edition(mut self, edition: u8) -> Call {
        self.edition = Some(edition);
        self
    }

    pub fn piece(mut self, at: usize, bytes: Vec<u8>) -> Call {
        self.pieces[at] = bytes;
        self
    }

    /// The call with what it states, as the board reads it.
    pub fn encode(&self, stated: Stated, out: &mut Vec<u8>) {
        let start = out.len();
        out.extend([0; 4]);
        out.push(self.function | if self.kept { KEPT } else { 0 });
        out.extend(self.declared.to_le_bytes());
        out.extend([stated.form, stated.edition]);
        put_record(&self.record, out);
        put_intake(&self.intake, out);
        put_ports(&self.ports, out);
        out.push(self.pieces.len() as u8);
        for piece in &self.pieces {
            out.extend((piece.len() as u32).to_le_bytes());
            out.extend(piece);
        }
        put_size(start, out);
    }

    /// The call that these bytes stand for, but never with a kept record.
    pub fn decode(bytes: &[u8]) -> Option<Call> {
        let mut from = Bytes(bytes.get(4..)?);
        let function = from.number(1)? as u8 & !KEPT;
        let declared = from.number(4)? as u32;
        let form = Some(from.number(1)? as u8);
        let edition = Some(from.number(1)? as u8);
        let record = from.record()?;
        let intake = from.intake()?;
        let ports = from.ports()?;
        let count = from.number(1)? as usize;
        if PIECES.get(usize::from(function))?.len() != count {
            return None;
        }
        let mut pieces = Vec::new();
        for _ in 0..count {
            let size = from.number(4)? as usize;
            pieces.push(from.take(size)?.to_vec());
        }
        let call = Call {
            function,
            kept: false,
            declared,
            form,
            edition,
            record,
            intake,
            ports,
            pieces,
        };
        from.0.is_empty().then_some(call)
    }

    /// Runs the second program on copies of the pieces, with what the call
    /// states, and writes down what the board is to answer.
    pub fn answer(&self, stated: Stated, out: &mut Vec<u8>) -> Said {
        let form = stated.form;
        let start = out.len();
        out.extend([0; 4]);
        out.push(self.function);
        out.push(0); // no guard was changed
        let (mut record, mut lost) = (self.record, (0, 0));
        let number = match self.function {
            EMPTY => answer_empty(&record, out),
            INQUIRY => self.answer_inquiry(form, &record, out),
            SUBMIT => self.answer_submit(stated, &mut record, out),
            COMPLETE => {
                let ended = self.answer_complete(form, &mut record, out);
                lost = (ended.lost, ended.lost_protocol);
                ended.number
            }
            WRITE => self.answer_write(&record, out),
            READ => self.answer_read(&record, out),
            ROLL => self.answer_roll(&record, out),
            INTAKE_EMPTY => answer_intake_empty(&record, out),
            INTAKE_TAKE => self.answer_take(&record, out),
            INTAKE_INQUIRY => self.answer_intake_inquiry(form, &record, out),
            INTAKE_ROLL => self.answer_intake_roll(&record, out),
            CENSUS_EMPTY => answer_census_empty(&record, out),
            CENSUS_FEED => self.answer_census_feed(&record, out),
            BUILD => answer_build(stated, &mut record, out),
            _ => self.answer_check(&record, out),
        };
        put_size(start, out);
        Said {
            number,
            record,
            lost,
        }
    }

    fn answer_inquiry(&self, form: u8, record: &Record, out: &mut Vec<u8>) -> u8 {
        let p = &self.pieces;
        let (mut room, mut sense) = (p[6].clone(), p[7].clone());
        let answer = self.inquiry(&p[0], &p[1], form, &mut room, &mut sense);
        put_inquiry(&answer, out);
        put_record(record, out);
        p[..6].iter().for_each(|piece| out.extend(piece));
        out.extend(&room);
        out.extend(&sense);
        answer.number
    }

    /// The second program's INQUIRY with this command, block and form, and all
    /// else that is lent to read as the call has it.
    pub fn inquiry(
        &self,
        command: &[u8],
        block: &[u8],
        form: u8,
        room: &mut [u8],
        sense: &mut [u8],
    ) -> Inquiry {
        let (p, ports) = (&self.pieces, self.ports);
        second::inquiry(
            command, block, &p[2], &p[3], &p[4], ports, &p[5], form, room, sense,
        )
    }

    fn answer_submit(&self, stated: Stated, record: &mut Record, out: &mut Vec<u8>) -> u8 {
        let p = &self.pieces;
        let Stated { form, edition } = stated;
        let mut sense = p[3].clone();
        let declared = self.declared;
        let taken = second::submit(
            record, &p[0], &p[1], &p[2], declared, edition, form, &mut sense,
        );
        put_taken(&taken, out);
        put_record(record, out);
        p[..3].iter().for_each(|piece| out.extend(piece));
        out.extend(&sense);
        taken.number
    }

    fn answer_complete(&self, form: u8, record: &mut Record, out: &mut Vec<u8>) -> Ended {
        let p = &self.pieces;
        let mut sense = p[1].clone();
        let ended = second::complete(record, &p[0], form, &mut sense);
        out.extend([ended.number, ended.status, ended.lost, ended.lost_protocol]);
        put_record(record, out);
        out.extend(&p[0]);
        out.extend(&sense);
        ended
    }

    fn answer_write(&self, record: &Record, out: &mut Vec<u8>) -> u8 {
        let p = &self.pieces;
        let mut room = p[2].clone();
        let written = second::write_page83(&p[0], self.ports, &p[1], &mut room);
        out.push(written.number);
        out.extend((written.count as u64).to_le_bytes());
        put_record(record, out);
        out.extend(&p[0]);
        out.extend(&p[1]);
        out.extend(&room);
        written.number
    }

    fn answer_read(&self, record: &Record, out: &mut Vec<u8>) -> u8 {
        let name = second::read_page83(&self.pieces[0]);
        out.extend([name.number, name.form]);
        out.extend(name.name);
        put_ports(&name.ports, out);
        out.extend(name.address);
        put_record(record, out);
        out.extend(&self.pieces[0]);
        name.number
    }

    fn answer_roll(&self, record: &Record, out: &mut Vec<u8>) -> u8 {
        let mut rows = numbers_in(&self.pieces[1]);
        let roll = second::roll(&self.pieces[0], &mut rows);
        put_roll(&roll, out);
        put_record(record, out);
        out.extend(&self.pieces[0]);
        rows.iter().for_each(|row| out.extend(row.to_le_bytes()));
        roll.number
    }

    fn answer_take(&self, record: &Record, out: &mut Vec<u8>) -> u8 {
        let mut store = self.pieces[0].clone();
        let answer = second::intake_take(self.intake, &mut store, &self.pieces[1]);
        put_intake(&answer.next, out);
        out.extend(answer.used.to_le_bytes());
        out.extend([answer.number, answer.complete]);
        put_record(record, out);
        out.extend(&store);
        out.extend(&self.pieces[1]);
        answer.number
    }

    /// INQUIRY with the bytes of the store that are the intake's block.
    fn answer_intake_inquiry(&self, form: u8, record: &Record, out: &mut Vec<u8>) -> u8 {
        let p = &self.pieces;
        let (mut room, mut sense) = (p[6].clone(), p[7].clone());
        let block = second::block_size(self.intake, p[0].len());
        let answer = if block.number == 0 {
            let block = &p[0][..block.count];
            self.inquiry(&p[1], block, form, &mut room, &mut sense)
        } else {
            not_asked(block.number)
        };
        put_counted(&block, out);
        put_inquiry(&answer, out);
        put_record(record, out);
        p[..6].iter().for_each(|piece| out.extend(piece));
        out.extend(&room);
        out.extend(&sense);
        answer.number
    }

    /// The roll of the bytes that were gathered in the room.
    fn answer_intake_roll(&self, record: &Record, out: &mut Vec<u8>) -> u8 {
        let p = &self.pieces;
        let (mut room, mut rows) = (p[2].clone(), numbers_in(&p[3]));
        let gathered = second::gather(&numbers_in(&p[0]), &p[1], &mut room);
        let roll = if gathered.number == 0 {
            second::roll(&room[..gathered.count], &mut rows)
        } else {
            not_rolled(gathered.number)
        };
        put_counted(&gathered, out);
        put_roll(&roll, out);
        put_record(record, out);
        out.extend(&p[0]);
        out.extend(&p[1]);
        out.extend(&room);
        rows.iter().for_each(|row| out.extend(row.to_le_bytes()));
        roll.number
    }

    fn answer_census_feed(&self, record: &Record, out: &mut Vec<u8>) -> u8 {
        let fed = second::census_feed(census_in(&self.pieces[0]), &self.pieces[1]);
        out.extend(census_bytes(&fed.next));
        out.push(fed.number);
        put_record(record, out);
        self.pieces.iter().for_each(|piece| out.extend(piece));
        fed.number
    }

    fn answer_check(&self, record: &Record, out: &mut Vec<u8>) -> u8 {
        let checked = second::check(&self.pieces[0]);
        out.extend([checked.number, checked.accepted, checked.tag]);
        out.extend((checked.place as u64).to_le_bytes());
        put_record(record, out);
        out.extend(&self.pieces[0]);
        checked.number
    }
}

/// What stands for the INQUIRY where the intake is refused: an INQUIRY with a
/// piece of a wrong size.
fn not_asked(number: u8) -> Inquiry {
    Inquiry {
        number,
        status: 0xFF,
        shown: 1,
        count: 0,
    }
}

/// What stands for the roll where the intakes are refused.
fn not_rolled(number: u8) -> Roll {
    Roll {
        number,
        blocks: 0,
        drives: 0,
    }
}

/// What stands for the command where an order is refused: zeros.
fn not_submitted() -> Taken {
    Taken {
        number: 0,
        status: 0,
        order: Order::default(),
    }
}

/// The 16-bit numbers that a piece holds.
pub fn numbers_in(piece: &[u8]) -> Vec<u16> {
    let pairs = piece.chunks_exact(2);
    pairs
        .map(|two| u16::from_le_bytes([two[0], two[1]]))
        .collect()
}

fn answer_empty(record: &Record, out: &mut Vec<u8>) -> u8 {
    put_record(&Record::default(), out);
    put_record(record, out);
    0
}

fn answer_intake_empty(record: &Record, out: &mut Vec<u8>) -> u8 {
    put_intake(&second::intake_empty(), out);
    put_record(record, out);
    0
}

fn answer_census_empty(record: &Record, out: &mut Vec<u8>) -> u8 {
    out.extend(census_bytes(&second::census_empty()));
    put_record(record, out);
    0
}

/// The record's order, and where a command is built of it that command's own.
fn answer_build(stated: Stated, record: &mut Record, out: &mut Vec<u8>) -> u8 {
    let order = record.order;
    let built = second::build(order);
    out.extend([built.number, built.size]);
    out.extend(built.command);
    let taken = if built.number == 0 {
        let (command, Stated { form, edition }) = (&built.command[..built.size.into()], stated);
        let (declared, sense) = (order.length, &mut [0; 22]);
        *record = Record::default();
        second::submit(
            record,
            command,
            &[0; 11],
            &[],
            declared,
            edition,
            form,
            sense,
        )
    } else {
        not_submitted()
    };
    put_taken(&taken, out);
    put_record(record, out);
    built.number.max(taken.number)
}

/// A census as its 26 numbers, in the header's order.
pub fn census_bytes(census: &Census) -> Vec<u8> {
    let mut numbers = vec![census.blocks, census.named, census.unnamed];
    numbers.extend(census.udma);
    numbers.extend(census.version);
    numbers
        .iter()
        .flat_map(|number| number.to_le_bytes())
        .collect()
}

/// The census of these bytes; numbers that are not there are zero.
pub fn census_in(bytes: &[u8]) -> Census {
    let mut numbers = numbers_in(bytes);
    numbers.resize(26, 0);
    let mut census = Census {
        blocks: numbers[0],
        named: numbers[1],
        unnamed: numbers[2],
        ..Census::default()
    };
    census.udma.copy_from_slice(&numbers[3..11]);
    census.version.copy_from_slice(&numbers[11..]);
    census
}

/// Writes the number of bytes behind `start` + 4 at `start`.
fn put_size(start: usize, out: &mut [u8]) {
    let size = (out.len() - start - 4) as u32;
    out[start..start + 4].copy_from_slice(&size.to_le_bytes());
}

fn put_record(record: &Record, out: &mut Vec<u8>) {
    out.extend(record.state.to_le_bytes());
    put_order(&record.order, out);
    put_order(&record.older, out);
}

fn put_intake(intake: &Intake, out: &mut Vec<u8>) {
    out.extend(intake.have.to_le_bytes());
    out.extend(intake.sum.to_le_bytes());
}

fn put_ports(ports: &Ports, out: &mut Vec<u8>) {
    out.extend(ports.chosen.to_le_bytes());
    out.extend(ports.relative.to_le_bytes());
}

fn put_counted(counted: &Counted, out: &mut Vec<u8>) {
    out.push(counted.number);
    out.extend((counted.count as u64).to_le_bytes());
}

fn put_inquiry(answer: &Inquiry, out: &mut Vec<u8>) {
    out.extend([answer.number, answer.status, answer.shown]);
    out.extend((answer.count as u64).to_le_bytes());
}

fn put_taken(taken: &Taken, out: &mut Vec<u8>) {
    out.extend([taken.number, taken.status]);
    put_order(&taken.order, out);
}

fn put_roll(roll: &Roll, out: &mut Vec<u8>) {
    out.push(roll.number);
    out.extend(roll.blocks.to_le_bytes());
    out.extend(roll.drives.to_le_bytes());
}

fn put_order(order: &Order, out: &mut Vec<u8>) {
    out.extend(order.length.to_le_bytes());
    out.extend(order.auxiliary.to_le_bytes());
    for number in [
        order.features,
        order.count,
        order.lba_low,
        order.lba_mid,
        order.lba_high,
        order.quiet_seconds,
        order.sectors_per_block,
    ] {
        out.extend(number.to_le_bytes());
    }
    out.extend([order.device, order.command, order.protocol]);
    out.extend([order.ck_cond, order.extend, order.direction]);
}

/// Bytes that are read from the front.
pub struct Bytes<'a>(pub &'a [u8]);

impl<'a> Bytes<'a> {
    pub fn take(&mut self, size: usize) -> Option<&'a [u8]> {
        let front = self.0.get(..size)?;
        self.0 = &self.0[size..];
        Some(front)
    }

    pub fn number(&mut self, size: usize) -> Option<u64> {
        let bytes = self.take(size)?;
        Some(bytes.iter().rev().fold(0, |n, &b| n << 8 | u64::from(b)))
    }

    pub fn order(&mut self) -> Option<Order> {
        Some(Order {
            length: self.number(4)? as u32,
            auxiliary: self.number(4)? as u32,
            features: self.number(2)? as u16,
            count: self.number(2)? as u16,
            lba_low: self.number(2)? as u16,
            lba_mid: self.number(2)? as u16,
            lba_high: self.number(2)? as u16,
            quiet_seconds: self.number(2)? as u16,
            sectors_per_block: self.number(2)? as u16,
            device: self.number(1)? as u8,
            command: self.number(1)? as u8,
            protocol: self.number(1)? as u8,
            ck_cond: self.number(1)? as u8,
            extend: self.number(1)? as u8,
            direction: self.number(1)? as u8,
        })
    }

    pub fn intake(&mut self) -> Option<Intake> {
        Some(Intake {
            have: self.number(2)? as u16,
            sum: self.number(2)? as u16,
        })
    }

    pub fn ports(&mut self) -> Option<Ports> {
        Some(Ports {
            chosen: self.number(2)? as u16,
            relative: self.number(2)? as u16,
        })
    }

    pub fn record(&mut self) -> Option<Record> {
        Some(Record {
            state: self.number(4)? as u32,
            order: self.order()?,
            older: self.order()?,
        })
    }
}
