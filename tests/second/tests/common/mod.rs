//! What the tests share: lent pieces, and runs that check every lent byte.

#![allow(dead_code)]

use second::{
    complete, inquiry, submit, write_page83, Ended, Inquiry, Order, Ports, Record, Taken, Written,
};

/// Fills lent room before a call, so that a written byte is seen.
pub const FILL: u8 = 0xA5;

/// None stated, fixed, descriptor, and numbers that state no form.
pub const FORMS: [u8; 6] = [0, 1, 2, 3, 0x81, 0xFF];

pub const BLOCK_0_NAME: [u8; 8] = [0x00, 0x50, 0x00, 0xC5, 0x34, 0x12, 0x78, 0x56];

/// The bytes of word 87 in a block that has a name.
pub const NAMED: [u8; 2] = [0x00, 0x41];

pub const PLAIN: [u8; 20] = [0; 20];

/// The registers of C12.
pub const REGISTERS: [u8; 11] = [0, 0, 0xFF, 0, 0, 0, 0, 0, 0, 0, 0x50];

/// The command of C6.
pub const C6: [u8; 12] = [0xA1, 0x08, 0x0E, 0, 1, 0, 0, 0, 0, 0xEC, 0, 0];

/// The command of C12.
pub const C12: [u8; 16] = [0x85, 0x06, 0x20, 0, 0, 0, 0, 0, 0, 0, 0, 0, 0, 0, 0xE5, 0];

pub fn packet_signature() -> [u8; 20] {
    let mut signature = [0; 20];
    signature[5] = 0x14;
    signature[6] = 0xEB;
    signature
}

/// Texts whose 28 bytes all differ.
pub fn texts() -> [u8; 28] {
    std::array::from_fn(|at| 0x41 + at as u8)
}

pub fn zero_block() -> [u8; 512] {
    [0; 512]
}

/// Block 0 of the roll's sample: zero but for its name, and word 87, which
/// says that it has one.
pub fn block_0() -> [u8; 512] {
    let mut block = zero_block();
    block[174..176].copy_from_slice(&NAMED);
    block[216..224].copy_from_slice(&BLOCK_0_NAME);
    block
}

/// A block of nonzero bytes with no name; neighbours differ.
pub fn text_block() -> [u8; 512] {
    let mut block: [u8; 512] = std::array::from_fn(|at| 1 + (at % 251) as u8);
    block[216..224].fill(0);
    block
}

/// No port is chosen.
pub const NO_PORTS: Ports = Ports {
    chosen: 0,
    relative: 0,
};

/// Writes page 83h with the name alone.
pub fn write_without_ports(block: &[u8], room: &mut [u8]) -> Written {
    write_page83(block, NO_PORTS, &[], room)
}

/// The pieces lent to INQUIRY. `room` and `sense` are sizes. The checks are
/// made in each form, whatever `form` is.
#[derive(Clone)]
pub struct Ask {
    pub command: Vec<u8>,
    pub block: Vec<u8>,
    pub signature: Vec<u8>,
    pub texts: Vec<u8>,
    pub reply: Vec<u8>,
    pub ports: Ports,
    pub address: Vec<u8>,
    pub form: u8,
    pub room: usize,
    pub sense: usize,
}

impl Ask {
    /// A drive with block 0, ample room, and the given command.
    pub fn new(command: &[u8]) -> Ask {
        Ask {
            command: command.to_vec(),
            block: block_0().to_vec(),
            signature: PLAIN.to_vec(),
            texts: texts().to_vec(),
            reply: Vec::new(),
            ports: NO_PORTS,
            address: Vec::new(),
            form: 0,
            room: 600,
            sense: 30,
        }
    }

    pub fn block(mut self, block: &[u8]) -> Ask {
        self.block = block.to_vec();
        self
    }

    pub fn signature(mut self, signature: &[u8]) -> Ask {
        self.signature = signature.to_vec();
        self
    }

    pub fn packet(self, reply: &[u8]) -> Ask {
        let mut ask = self.signature(&packet_signature());
        ask.reply = reply.to_vec();
        ask
    }

    pub fn texts(mut self, texts: &[u8]) -> Ask {
        self.texts = texts.to_vec();
        self
    }

    pub fn ports(mut self, chosen: u16, relative: u16, address: &[u8]) -> Ask {
        self.ports = Ports { chosen, relative };
        self.address = address.to_vec();
        self
    }

    pub fn form(mut self, form: u8) -> Ask {
        self.form = form;
        self
    }

    fn in_each_form(&self) -> impl Iterator<Item = Ask> + '_ {
        FORMS.iter().map(|&form| self.clone().form(form))
    }

    pub fn room(mut self, room: usize) -> Ask {
        self.room = room;
        self
    }

    pub fn sense(mut self, sense: usize) -> Ask {
        self.sense = sense;
        self
    }

    pub fn run(&self) -> (Inquiry, Vec<u8>, Vec<u8>) {
        let mut room = vec![FILL; self.room];
        let mut sense = vec![FILL; self.sense];
        let answer = inquiry(
            &self.command,
            &self.block,
            &self.signature,
            &self.texts,
            &self.reply,
            self.ports,
            &self.address,
            self.form,
            &mut room,
            &mut sense,
        );
        (answer, room, sense)
    }

    /// Checks a GOOD answer that shows exactly these bytes of the output room.
    pub fn writes(&self, bytes: &[u8]) {
        let wanted = Inquiry {
            number: 0,
            status: 0x00,
            shown: 1,
            count: bytes.len(),
        };
        for ask in self.in_each_form() {
            let (answer, room, sense) = ask.run();
            assert_eq!(answer, wanted);
            assert_eq!(&room[..bytes.len()], bytes);
            assert!(is_filled(&room[bytes.len()..]), "room past n is touched");
            assert!(is_filled(&sense), "sense is touched");
        }
    }

    /// Checks a GOOD answer that shows so many bytes of the drive's reply.
    pub fn passes(&self, count: usize) {
        let wanted = Inquiry {
            number: 0,
            status: 0x00,
            shown: 0,
            count,
        };
        for ask in self.in_each_form() {
            let (answer, room, sense) = ask.run();
            assert_eq!(answer, wanted);
            assert!(is_filled(&room), "room is touched");
            assert!(is_filled(&sense), "sense is touched");
        }
    }

    /// Checks a refusal: number, status, sense, and nothing else touched.
    pub fn refused(&self, number: u8) {
        let wanted = Inquiry {
            number,
            status: row(number).0,
            shown: 1,
            count: 0,
        };
        for ask in self.in_each_form() {
            let (answer, room, sense) = ask.run();
            assert_eq!(answer, wanted);
            assert!(is_filled(&room), "room is touched");
            check_refusal_sense(number, ask.form, &sense);
        }
    }
}

/// The pieces lent to a pass-through command. `sense` is a size. The checks
/// are made in each form, whatever `form` is.
#[derive(Clone)]
pub struct Pass {
    pub record: Record,
    pub command: Vec<u8>,
    pub registers: Vec<u8>,
    pub block: Vec<u8>,
    pub declared: u32,
    pub edition: u8,
    pub form: u8,
    pub sense: usize,
}

impl Pass {
    /// Nothing pending, ample declared length, no edition stated and no block,
    /// and the given command.
    pub fn new(command: &[u8]) -> Pass {
        Pass {
            record: Record::default(),
            command: command.to_vec(),
            registers: REGISTERS.to_vec(),
            block: Vec::new(),
            declared: u32::MAX,
            edition: 0,
            form: 0,
            sense: 30,
        }
    }

    /// The same by the later edition, with this block.
    pub fn later(mut self, block: &[u8]) -> Pass {
        self.block = block.to_vec();
        self.edition(2)
    }

    pub fn edition(mut self, edition: u8) -> Pass {
        self.edition = edition;
        self
    }

    pub fn declared(mut self, declared: u32) -> Pass {
        self.declared = declared;
        self
    }

    pub fn form(mut self, form: u8) -> Pass {
        self.form = form;
        self
    }

    pub fn in_each_form(&self) -> impl Iterator<Item = Pass> + '_ {
        FORMS.iter().map(|&form| self.clone().form(form))
    }

    pub fn pending(mut self) -> Pass {
        self.record = some_record();
        self
    }

    pub fn registers(mut self, registers: &[u8]) -> Pass {
        self.registers = registers.to_vec();
        self
    }

    pub fn sense(mut self, sense: usize) -> Pass {
        self.sense = sense;
        self
    }

    pub fn byte(mut self, at: usize, value: u8) -> Pass {
        self.command[at] = value;
        self
    }

    pub fn run(&self) -> (Taken, Record, Vec<u8>) {
        let mut record = self.record;
        let mut sense = vec![FILL; self.sense];
        let taken = submit(
            &mut record,
            &self.command,
            &self.registers,
            &self.block,
            self.declared,
            self.edition,
            self.form,
            &mut sense,
        );
        (taken, record, sense)
    }

    /// The order taken; checks that the record holds it and sense is untouched.
    pub fn order(&self) -> Order {
        let (first, wanted, _) = self.run();
        assert_eq!((wanted.state, wanted.order), (1, first.order));
        for pass in self.in_each_form() {
            let (taken, record, sense) = pass.run();
            assert_eq!((taken.number, taken.status), (0, 0xFF));
            assert_eq!((taken, record), (first, wanted));
            assert!(is_filled(&sense), "sense is touched");
        }
        first.order
    }

    /// Checks a refusal: number, status, sense, zero order, record unchanged.
    pub fn refused(&self, number: u8) {
        let wanted = Taken {
            number,
            status: row(number).0,
            order: Order::default(),
        };
        for pass in self.in_each_form() {
            let (taken, record, sense) = pass.run();
            assert_eq!(taken, wanted);
            assert_eq!(record, self.record);
            check_refusal_sense(number, pass.form, &sense);
        }
    }
}

/// Completes with sense room of the given size, in the descriptor form.
pub fn end(record: &mut Record, registers: &[u8], size: usize) -> (Ended, Vec<u8>) {
    end_in_form(2, record, registers, size)
}

/// Completes with sense room of the given size.
pub fn end_in_form(
    form: u8,
    record: &mut Record,
    registers: &[u8],
    size: usize,
) -> (Ended, Vec<u8>) {
    let mut sense = vec![FILL; size];
    let ended = complete(record, registers, form, &mut sense);
    (ended, sense)
}

/// What a completion answers by which no order is lost.
pub fn ended(number: u8, status: u8) -> Ended {
    Ended {
        number,
        status,
        lost: 0,
        lost_protocol: 0,
    }
}

/// A pending record whose numbers no command makes.
pub fn some_record() -> Record {
    Record {
        state: 0x8000_0007,
        order: Order {
            length: 0xDEAD_BEEF,
            auxiliary: 0xFEED_C0DE,
            features: 0x1122,
            count: 0x3344,
            lba_low: 0x5566,
            lba_mid: 0x7788,
            lba_high: 0x99AA,
            quiet_seconds: 999,
            sectors_per_block: 777,
            device: 0xBB,
            command: 0xCC,
            protocol: 0xDD,
            ck_cond: 0x80,
            extend: 0x40,
            direction: 0xEE,
        },
        older: Order {
            length: 0xFEED_FACE,
            protocol: 0x21,
            ck_cond: 0x10,
            extend: 0x20,
            ..Order::default()
        },
    }
}

pub fn is_filled(bytes: &[u8]) -> bool {
    bytes.iter().all(|&byte| byte == FILL)
}

/// The table's status, and key, ASC and ASCQ, row by row (RULES 3).
pub fn row(number: u8) -> (u8, Option<[u8; 3]>) {
    match number {
        1 => (0xFF, None),
        2 => (0x02, Some([0x05, 0x24, 0x00])),
        3 => (0x02, Some([0x05, 0x20, 0x00])),
        4 => (0x02, Some([0x05, 0x24, 0x00])),
        5 => (0x02, Some([0x05, 0x24, 0x00])),
        6 => (0x02, Some([0x02, 0x04, 0x00])),
        7 => (0x02, Some([0x0B, 0x00, 0x00])),
        8 => (0xFF, None),
        9 => (0x02, Some([0x05, 0x24, 0x00])),
        10 => (0x08, None),
        11 => (0x02, Some([0x05, 0x24, 0x00])),
        12 => (0x02, Some([0x05, 0x24, 0x00])),
        13 => (0x02, Some([0x05, 0x24, 0x00])),
        14 => (0x02, Some([0x05, 0x24, 0x00])),
        15 => (0xFF, None),
        16 => (0xFF, None),
        18 => (0xFF, None),
        19 => (0x02, Some([0x05, 0x24, 0x00])),
        20 => (0x02, Some([0x05, 0x24, 0x00])),
        _ => panic!("no such row"),
    }
}

/// The sense room after a refusal (RULES 10).
pub fn check_refusal_sense(number: u8, form: u8, sense: &[u8]) {
    match (row(number).1, form) {
        (None, _) => check_sense(&[], sense),
        (Some([key, asc, ascq]), 2) => check_sense(&[0x72, key, asc, ascq, 0, 0, 0, 0], sense),
        (Some([key, asc, ascq]), _) => check_sense(
            &[
                0x70, 0, key, 0, 0, 0, 0, 0x0A, 0, 0, 0, 0, asc, ascq, 0, 0, 0, 0,
            ],
            sense,
        ),
    }
}

/// That the sense room begins with these bytes and is untouched behind them.
pub fn check_sense(wanted: &[u8], sense: &[u8]) {
    let (written, behind) = sense.split_at(wanted.len());
    assert_eq!(written, wanted);
    assert!(is_filled(behind), "sense past its bytes is touched");
}

/// A small generator of repeatable numbers, for tests over many inputs.
pub struct Numbers(pub u64);

impl Numbers {
    pub fn below(&mut self, end: usize) -> usize {
        self.0 = self
            .0
            .wrapping_mul(6364136223846793005)
            .wrapping_add(1442695040888963407);
        (self.0 >> 33) as usize % end
    }

    pub fn byte(&mut self) -> u8 {
        self.below(256) as u8
    }
}
