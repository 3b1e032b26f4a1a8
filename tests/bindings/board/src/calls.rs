//! The calls.

use crate::lent::{guards, Bytes, Numbers, Piece};
use crate::named;
use piongseut::{Census, Checked, Completed, Inquiry, Intake, Name, Order, Ports, Record};
use piongseut::{Refusal, Refused, Roll, Shown, Submit, Submitted};

const PIECES: [usize; 15] = [0, 8, 4, 2, 3, 1, 2, 0, 2, 8, 4, 0, 2, 0, 1];
const RECORD_GUARD: u8 = 255;

/// The record between guards, which stays from call to call.
#[repr(C)]
struct Kept {
    before: [u8; 64],
    record: Record,
    behind: [u8; 64],
}

impl Default for Kept {
    fn default() -> Kept {
        Kept {
            before: guards(),
            record: Record::empty(),
            behind: guards(),
        }
    }
}

#[derive(Default)]
pub struct Call {
    function: u8,
    declared: u32,
    form: u8,
    edition: u8,
    kept: Kept,
    intake: Intake,
    chosen: u16,
    relative: u16,
    pieces: [Piece; 8],
    /// The pieces that are 16-bit numbers once more, as such.
    numbers: [Numbers; 8],
    calls: usize,
    /// Orders that the wrapper's types cannot say.
    pub unsaid: u64,
}

impl Call {
    pub fn read(&mut self, bytes: &[u8]) {
        let mut from = Bytes(bytes);
        let first = from.byte();
        self.function = first & 0x7F;
        self.declared = from.number(4) as u32;
        self.form = from.byte();
        self.edition = from.byte();
        let mut record = [0; 60];
        record.copy_from_slice(from.take(60));
        if first & 0x80 == 0 {
            self.kept.record = Record::from_bytes(record);
        }
        self.intake.have = from.sixteen_bits();
        self.intake.sum = from.sixteen_bits();
        self.chosen = from.sixteen_bits();
        self.relative = from.sixteen_bits();
        self.read_pieces(&mut from);
        assert!(from.0.is_empty(), "a call of a wrong size");
    }

    fn read_pieces(&mut self, from: &mut Bytes) {
        let count = PIECES[usize::from(self.function)];
        assert_eq!(usize::from(from.byte()), count, "the number of pieces");
        self.calls += 1;
        for at in 0..count {
            let size = from.number(4) as usize;
            let bytes = from.take(size);
            self.pieces[at].fill(bytes, self.calls % 16);
            if self.of_sixteen_bits(at) {
                self.numbers[at].fill(bytes);
            }
        }
    }

    fn of_sixteen_bits(&self, at: usize) -> bool {
        matches!((self.function, at), (6, 1) | (10, 0 | 3) | (12, 0))
    }

    /// Makes the call, and writes down all that there is to see afterwards.
    pub fn answer(&mut self, out: &mut Vec<u8>) {
        let start = out.len();
        out.extend([0; 4]);
        out.extend([self.function, 0]);
        match self.function {
            0 => out.extend(Record::empty().to_bytes()),
            1 => self.inquiry(out),
            2 => self.submit(out),
            3 => self.complete(out),
            4 => self.write_page83(out),
            5 => self.read_page83(out),
            6 => self.roll(out),
            7 => put_intake(Intake::empty(), out),
            8 => self.take(out),
            9 => self.intake_inquiry(out),
            10 => self.intake_roll(out),
            11 => put_census(&Census::empty(), out),
            12 => self.feed(out),
            13 => self.build(out),
            _ => self.check(out),
        }
        out[start + 5] = self.changed_guard();
        out.extend(self.kept.record.to_bytes());
        for at in 0..PIECES[usize::from(self.function)] {
            if self.of_sixteen_bits(at) {
                let numbers = self.numbers[at].read().iter();
                out.extend(numbers.flat_map(|number| number.to_le_bytes()));
            } else {
                out.extend(self.pieces[at].read());
            }
        }
        let size = (out.len() - start - 4) as u32;
        out[start..start + 4].copy_from_slice(&size.to_le_bytes());
    }

    /// 0, or which piece's guard was changed.
    fn changed_guard(&self) -> u8 {
        if self.kept.before != guards() || self.kept.behind != guards() {
            return RECORD_GUARD;
        }
        let whole = |at: usize| match self.of_sixteen_bits(at) {
            true => self.numbers[at].is_guarded(),
            false => self.pieces[at].is_guarded(),
        };
        let mut pieces = 0..PIECES[usize::from(self.function)];
        pieces.find(|&at| !whole(at)).map_or(0, |at| at as u8 + 1)
    }

    fn inquiry(&mut self, out: &mut Vec<u8>) {
        let (form, chosen, relative) = (named::form_of(self.form), self.chosen, self.relative);
        let [command, block, signature, texts, reply, address, room, sense] = &mut self.pieces;
        let lent = Inquiry {
            command: command.read(),
            block: block.read(),
            signature: signature.read(),
            texts: texts.read(),
            reply: reply.read(),
            ports: ports(chosen, relative, address.read()),
            form,
        };
        put_shown(&lent, room, sense, out);
    }

    /// INQUIRY with the bytes of the store that are the intake's block.
    fn intake_inquiry(&mut self, out: &mut Vec<u8>) {
        let (form, chosen, relative) = (named::form_of(self.form), self.chosen, self.relative);
        let [store, command, signature, texts, reply, address, room, sense] = &mut self.pieces;
        let block = self.intake.block(store.read());
        put_front(block, store.read(), out);
        let block = match block {
            Ok(block) => block,
            Err(_) => return put_refused_inquiry(1, 0xFF, out),
        };
        let lent = Inquiry {
            command: command.read(),
            block,
            signature: signature.read(),
            texts: texts.read(),
            reply: reply.read(),
            ports: ports(chosen, relative, address.read()),
            form,
        };
        put_shown(&lent, room, sense, out);
    }

    fn submit(&mut self, out: &mut Vec<u8>) {
        let [command, registers, block, sense, ..] = &mut self.pieces;
        let lent = Submit {
            command: command.read(),
            registers: registers.read(),
            block: block.read(),
            declared: self.declared,
            edition: named::edition_of(self.edition),
            form: named::form_of(self.form),
        };
        put_submitted(self.kept.record.submit(&lent, sense.write()), out);
    }

    fn complete(&mut self, out: &mut Vec<u8>) {
        let [registers, sense, ..] = &mut self.pieces;
        let form = named::form_of(self.form);
        match self
            .kept
            .record
            .complete(registers.read(), form, sense.write())
        {
            Ok(Completed { status, lost }) => {
                let protocol = lost.map_or(0, named::protocol);
                out.extend([0, named::status(status), lost.is_some().into(), protocol]);
            }
            Err(Refused { refusal, status }) => {
                out.extend([named::refusal(refusal), named::status(status), 0, 0]);
            }
        }
    }

    fn write_page83(&mut self, out: &mut Vec<u8>) {
        let [block, address, room, ..] = &mut self.pieces;
        let ports = ports(self.chosen, self.relative, address.read());
        let place = room.read().as_ptr();
        let page = piongseut::write_page83(block.read(), ports, room.write());
        assert!(
            page.map_or(true, |page| page.as_ptr() == place),
            "the page is the room's front"
        );
        put_count(page.map(<[u8]>::len), out);
    }

    fn read_page83(&mut self, out: &mut Vec<u8>) {
        let page = match piongseut::read_page83(self.pieces[0].read()) {
            Ok(page) => page,
            Err(refusal) => {
                out.push(named::refusal(refusal));
                return out.extend([0; 73]);
            }
        };
        let (form, mut name) = match page.name {
            Name::Wwn(name) => (1, name.to_vec()),
            Name::Text { model, serial } => (2, [&model[..], &serial].concat()),
            Name::Other(form) => panic!("a name of form {form}"),
        };
        name.resize(60, 0);
        out.extend([0, form]);
        out.extend(name);
        let chosen = u16::from(page.relative.is_some()) + 2 * u16::from(page.sas.is_some());
        out.extend(chosen.to_le_bytes());
        out.extend(page.relative.unwrap_or(0).to_le_bytes());
        out.extend(page.sas.unwrap_or_default());
    }

    fn roll(&mut self, out: &mut Vec<u8>) {
        put_roll(
            piongseut::roll(self.pieces[0].read(), self.numbers[1].write()),
            out,
        );
    }

    fn take(&mut self, out: &mut Vec<u8>) {
        let [store, run, ..] = &mut self.pieces;
        let mut intake = self.intake;
        let took = intake.take(store.write(), run.read());
        put_intake(intake, out);
        match took {
            Ok(took) => {
                out.extend((took.used as u16).to_le_bytes());
                out.extend([0, took.complete.into()]);
            }
            Err(refusal) => out.extend([0, 0, named::refusal(refusal), 0]),
        }
    }

    /// The roll of the bytes that were gathered in the room.
    fn intake_roll(&mut self, out: &mut Vec<u8>) {
        let [_, stores, room, ..] = &mut self.pieces;
        let [haves, _, _, rows, ..] = &mut self.numbers;
        let place = room.read().as_ptr();
        let blocks = piongseut::gather(haves.read(), stores.read(), room.write());
        assert!(
            blocks.map_or(true, |blocks| blocks.as_ptr() == place),
            "the blocks are the room's front"
        );
        put_count(blocks.map(<[u8]>::len), out);
        put_roll(
            blocks.and_then(|blocks| piongseut::roll(blocks, rows.write())),
            out,
        );
    }

    fn feed(&mut self, out: &mut Vec<u8>) {
        let numbers = self.numbers[0].read();
        let mut census = Census {
            blocks: numbers[0],
            named: numbers[1],
            unnamed: numbers[2],
            ..Census::empty()
        };
        census.udma.copy_from_slice(&numbers[3..11]);
        census.version.copy_from_slice(&numbers[11..26]);
        let fed = census.feed(self.pieces[1].read());
        put_census(&census, out);
        out.push(fed.map_or_else(named::refusal, |()| 0));
    }

    /// The record's order, and where a command is built of it that command's
    /// own.
    fn build(&mut self, out: &mut Vec<u8>) {
        let built = match order_of(&self.kept.record.to_bytes()) {
            Some(order) => piongseut::build(&order).map(|command| (order, command)),
            None => {
                self.unsaid += 1;
                Err(Refusal::Order)
            }
        };
        let (order, command) = match built {
            Ok(both) => both,
            Err(refusal) => {
                out.push(named::refusal(refusal));
                return out.extend([0; 17 + 30]);
            }
        };
        let mut bytes = command.bytes().to_vec();
        out.extend([0, bytes.len() as u8]);
        let lent = Submit {
            command: command.bytes(),
            registers: &[0; 11],
            block: &[],
            declared: order.length,
            edition: named::edition_of(self.edition),
            form: named::form_of(self.form),
        };
        self.kept.record = Record::empty();
        let submitted = self.kept.record.submit(&lent, &mut [0; 22]);
        bytes.resize(16, 0);
        out.extend(bytes);
        put_submitted(submitted, out);
    }

    fn check(&mut self, out: &mut Vec<u8>) {
        let (answer, place) = match piongseut::check(self.pieces[0].read()) {
            Checked::Accepted => ([0, 1, 0], 0),
            Checked::Differs { field, place } => ([0, 0, named::tag(field)], place),
            Checked::Refused { refusal, place } => ([named::refusal(refusal), 0, 0], place),
        };
        out.extend(answer);
        out.extend((place as u64).to_le_bytes());
    }
}

fn ports(chosen: u16, relative: u16, address: &[u8]) -> Ports<'_> {
    Ports {
        relative: (chosen & 1 != 0).then_some(relative),
        sas: (chosen & 2 != 0).then_some(address),
    }
}

/// The first order of a record's bytes, if the wrapper's types can say it.
fn order_of(record: &[u8]) -> Option<Order> {
    let flag = |byte| match byte {
        0 => Some(false),
        1 => Some(true),
        _ => None,
    };
    let mut from = Bytes(&record[4..]);
    Some(Order {
        length: from.number(4) as u32,
        auxiliary: from.number(4) as u32,
        features: from.sixteen_bits(),
        count: from.sixteen_bits(),
        lba_low: from.sixteen_bits(),
        lba_mid: from.sixteen_bits(),
        lba_high: from.sixteen_bits(),
        quiet_seconds: from.sixteen_bits(),
        sectors_per_block: from.sixteen_bits(),
        device: from.byte(),
        command: from.byte(),
        protocol: named::protocol_of(from.byte()),
        ck_cond: flag(from.byte())?,
        extend: flag(from.byte())?,
        direction: named::direction_of(from.byte()),
    })
}

/// Asks, and tells whose front is shown.
fn put_shown(lent: &Inquiry, room: &mut Piece, sense: &mut Piece, out: &mut Vec<u8>) {
    let (reply, front) = (lent.reply.as_ptr(), room.read().as_ptr());
    let (shown, bytes) = match piongseut::inquiry(lent, room.write(), sense.write()) {
        Ok(Shown::Reply(bytes)) => (0, bytes),
        Ok(Shown::Room(bytes)) => (1, bytes),
        Err(Refused { refusal, status }) => {
            return put_refused_inquiry(named::refusal(refusal), named::status(status), out)
        }
    };
    assert_eq!(
        bytes.as_ptr(),
        [reply, front][usize::from(shown)],
        "what is shown"
    );
    out.extend([0, 0x00, shown]);
    out.extend((bytes.len() as u64).to_le_bytes());
}

fn put_refused_inquiry(number: u8, status: u8, out: &mut Vec<u8>) {
    out.extend([number, status, 1]);
    out.extend([0; 8]);
}

fn put_submitted(submitted: Result<Submitted, Refused>, out: &mut Vec<u8>) {
    match submitted {
        Ok(Submitted::Taken(order)) => {
            out.extend([0, 0xFF]);
            out.extend(named::order(&order));
        }
        Ok(Submitted::Reported) => {
            out.extend([0, 0x02]);
            out.extend([0; 28]);
        }
        Err(Refused { refusal, status }) => {
            out.extend([named::refusal(refusal), named::status(status)]);
            out.extend([0; 28]);
        }
    }
}

/// How many bytes of what was lent are meant.
fn put_count(count: Result<usize, Refusal>, out: &mut Vec<u8>) {
    out.push(count.map_or_else(named::refusal, |_| 0));
    out.extend((count.unwrap_or(0) as u64).to_le_bytes());
}

fn put_front(part: Result<&[u8], Refusal>, of: &[u8], out: &mut Vec<u8>) {
    assert!(
        part.map_or(true, |part| part.as_ptr() == of.as_ptr()),
        "it is the front"
    );
    put_count(part.map(<[u8]>::len), out);
}

fn put_roll(roll: Result<Roll, Refusal>, out: &mut Vec<u8>) {
    out.push(roll.map_or_else(named::refusal, |_| 0));
    let (blocks, drives) = roll.map_or((0, 0), |roll| (roll.blocks, roll.drives));
    out.extend(blocks.to_le_bytes());
    out.extend(drives.to_le_bytes());
}

fn put_intake(intake: Intake, out: &mut Vec<u8>) {
    out.extend(intake.have.to_le_bytes());
    out.extend(intake.sum.to_le_bytes());
}

fn put_census(census: &Census, out: &mut Vec<u8>) {
    let mut numbers = vec![census.blocks, census.named, census.unnamed];
    numbers.extend(census.udma);
    numbers.extend(census.version);
    out.extend(numbers.iter().flat_map(|number| number.to_le_bytes()));
}
