//! ATA PASS-THROUGH: orders and the pending record (RULES 8 and 9).

use crate::{ffi, Direction, Edition, Form, Protocol, Refused, Status};

/// An order for the drive.
///
/// Orders that [`Record::submit`] gives name a protocol and a direction. One
/// that is to be [built](crate::build) begins best with what it has, and
/// `..Order::default()` for the rest, which is zero.
#[derive(Clone, Copy, Debug, Default, PartialEq, Eq, Hash)]
pub struct Order {
    /// Of the data, in bytes.
    pub length: u32,
    /// Bytes 28 to 31 of the 32-byte command, high byte first; 0 of any other.
    pub auxiliary: u32,
    /// A register: its upper byte times 256, plus its lower byte. So are the
    /// four that follow.
    pub features: u16,
    /// The count register.
    pub count: u16,
    /// LBA low.
    pub lba_low: u16,
    /// LBA mid.
    pub lba_mid: u16,
    /// LBA high.
    pub lba_high: u16,
    /// 2 to the power OFF_LINE + 1, less 2.
    pub quiet_seconds: u16,
    /// 2 to the power MULTIPLE_COUNT.
    pub sectors_per_block: u16,
    /// The device register.
    pub device: u8,
    /// The ATA command.
    pub command: u8,
    /// What the drive does with it.
    pub protocol: Protocol,
    /// Completion is to tell the registers, also without an error.
    pub ck_cond: bool,
    /// The registers' upper bytes count.
    pub extend: bool,
    /// Which way the data go.
    pub direction: Direction,
}

impl Order {
    pub(crate) fn in_c(&self) -> ffi::Order {
        ffi::Order {
            length: self.length,
            auxiliary: self.auxiliary,
            features: self.features,
            count: self.count,
            lba_low: self.lba_low,
            lba_mid: self.lba_mid,
            lba_high: self.lba_high,
            quiet_seconds: self.quiet_seconds,
            sectors_per_block: self.sectors_per_block,
            device: self.device,
            command: self.command,
            protocol: self.protocol.number(),
            ck_cond: self.ck_cond.into(),
            extend: self.extend.into(),
            direction: self.direction.number(),
        }
    }

    /// CK_COND and EXTEND count as set where they are not 0.
    fn of(order: &ffi::Order) -> Order {
        Order {
            length: order.length,
            auxiliary: order.auxiliary,
            features: order.features,
            count: order.count,
            lba_low: order.lba_low,
            lba_mid: order.lba_mid,
            lba_high: order.lba_high,
            quiet_seconds: order.quiet_seconds,
            sectors_per_block: order.sectors_per_block,
            device: order.device,
            command: order.command,
            protocol: Protocol::of(order.protocol),
            ck_cond: order.ck_cond != 0,
            extend: order.extend != 0,
            direction: Direction::of(order.direction),
        }
    }
}

/// What is lent to read to [`Record::submit`], and what is stated there.
#[derive(Clone, Copy, Debug)]
pub struct Submit<'a> {
    /// The command bytes as the host sent them: A1h with 12 bytes, 85h with 16,
    /// and in the later edition 7Fh with 32; those behind are ignored.
    pub command: &'a [u8],
    /// The drive's registers as they are now, 11 bytes, which PROTOCOL 15
    /// reports; [`register`](crate::register) names their places.
    pub registers: &'a [u8],
    /// In the later edition the drive's IDENTIFY block, 512 bytes, or none where
    /// it gave none. In the first it is not looked at, of whatever size it is.
    pub block: &'a [u8],
    /// The host's own length of the data, in bytes.
    pub declared: u32,
    /// The edition of SAT by which the command is read.
    pub edition: Edition,
    /// The form of the sense data.
    pub form: Form,
}

/// What came of a command that was not refused.
#[derive(Clone, Copy, Debug, PartialEq, Eq, Hash)]
pub enum Submitted {
    /// An order to carry out, which the record holds until its completion. It
    /// has no status before that.
    Taken(Order),
    /// PROTOCOL 15: CHECK CONDITION, and sense data that tell the registers. It
    /// made no order, and the record is as it was.
    Reported,
}

/// How an order ended.
#[derive(Clone, Copy, Debug, PartialEq, Eq, Hash)]
pub struct Completed {
    /// CHECK CONDITION with sense data that tell the registers, or GOOD with the
    /// sense room untouched.
    pub status: Status,
    /// The protocol of the order that is lost, where a reset was over one. A
    /// lost order has no status.
    pub lost: Option<Protocol>,
}

/// What a record holds.
#[derive(Clone, Copy, Debug, PartialEq, Eq, Hash)]
pub enum State {
    /// Nothing is pending.
    Nothing,
    /// An order, which may be a reset.
    Order(Order),
    /// An order, and a reset that was taken over it.
    ResetOverOrder {
        /// What completion ends.
        reset: Order,
        /// What is lost with it.
        order: Order,
    },
}

/// The pending record: one order at most, and one reset over it.
///
/// It has the layout of `piongseut_record`, so that C code can be lent the same
/// one.
///
/// ```
/// use piongseut::{Completed, Direction, Edition, Form, Protocol, Record, Refusal};
/// use piongseut::{Status, Submit, Submitted};
///
/// let mut record = Record::empty();
/// let mut sense = [0; 22];
/// // IDENTIFY DEVICE in ATA PASS-THROUGH (12): one block from the drive.
/// let identify = Submit {
///     command: &[0xA1, 0x08, 0x0E, 0, 1, 0, 0, 0, 0, 0xEC, 0, 0],
///     registers: &[0; 11],
///     block: &[],
///     declared: 512,
///     edition: Edition::First,
///     form: Form::Descriptor,
/// };
/// match record.submit(&identify, &mut sense)? {
///     Submitted::Taken(order) => {
///         assert_eq!((order.protocol, order.command), (Protocol::PioDataIn, 0xEC));
///         assert_eq!((order.direction, order.length), (Direction::FromDrive, 512));
///     }
///     Submitted::Reported => unreachable!("PROTOCOL is 4"),
/// }
/// // A second order has to wait, but a reset gets past one that hangs.
/// let busy = record.submit(&identify, &mut sense).unwrap_err();
/// assert_eq!((busy.refusal, busy.status), (Refusal::Pending, Status::Busy));
/// let reset = Submit { command: &[0xA1, 0x02, 0, 0, 0, 0, 0, 0, 0, 0, 0, 0], ..identify };
/// assert!(matches!(record.submit(&reset, &mut sense)?, Submitted::Taken(_)));
/// // The reset ends, and the order under it is lost.
/// let ended = record.complete(&[0, 0, 1, 0, 1, 0, 0, 0, 0, 0, 0x50], Form::Descriptor, &mut sense)?;
/// let lost = Some(Protocol::PioDataIn);
/// assert_eq!(ended, Completed { status: Status::Good, lost });
/// assert_eq!(record, Record::empty());
/// # Ok::<(), piongseut::Refused>(())
/// ```
#[derive(Clone, Copy, Debug, PartialEq, Eq, Hash)]
#[repr(transparent)]
pub struct Record(ffi::Record);

/// A record that holds nothing.
impl Default for Record {
    fn default() -> Record {
        Record::empty()
    }
}

impl Record {
    /// A record that holds nothing.
    ///
    /// ```
    /// use piongseut::{Record, State};
    ///
    /// assert_eq!(Record::empty().state(), State::Nothing);
    /// ```
    pub fn empty() -> Record {
        // SAFETY: nothing is lent.
        Record(unsafe { ffi::piongseut_record_empty() })
    }

    /// Submits an ATA PASS-THROUGH command to the record.
    ///
    /// Lent to write, besides the record: sense room of at least
    /// [`SENSE_SIZE`](crate::SENSE_SIZE) bytes. Back comes an order to carry
    /// out, which the record holds now, or of PROTOCOL 15 that the registers
    /// stand in the sense data. While an order is pending a reset (PROTOCOL 0
    /// or 1) is taken over it, unless that is a reset itself or has one over
    /// it; nothing else is.
    ///
    /// On packet (MMC) drives the opcode A1h is BLANK. This function is lent no
    /// signature and takes A1h for ATA PASS-THROUGH (12): whoever calls it has
    /// to send a packet drive's A1h to the drive instead.
    ///
    /// # Refusals
    ///
    /// In the order in which they are asked. The record stays as it was; sense
    /// data stand in the sense room where the status is CHECK CONDITION.
    ///
    /// | Refusal | Status | Given when |
    /// |---|---|---|
    /// | [`Size`](crate::Refusal::Size) | none | the registers have not 11 bytes, or the sense room fewer than 22; in the later edition also a block of neither 512 bytes nor none |
    /// | [`Damaged`](crate::Refusal::Damaged) | none | in the later edition: the block is damaged |
    /// | [`Short`](crate::Refusal::Short) | CHECK CONDITION | there are no command bytes, or behind `Opcode` fewer than the opcode asks for |
    /// | [`Opcode`](crate::Refusal::Opcode) | CHECK CONDITION | byte 0 is not A1h, 85h, or in the later edition 7Fh |
    /// | [`Field`](crate::Refusal::Field) | CHECK CONDITION | NACA |
    /// | [`ServiceAction`](crate::Refusal::ServiceAction) | CHECK CONDITION | 7Fh, and bytes 7 to 9 are not 18h 1Fh F0h |
    /// | [`Protocol`](crate::Refusal::Protocol) | CHECK CONDITION | PROTOCOL is 2, 7, 12, 13 or 14 |
    /// | [`Pending`](crate::Refusal::Pending) | BUSY | an order is pending that this one has to wait for |
    /// | [`TLength`](crate::Refusal::TLength) | CHECK CONDITION | T_LENGTH does not fit the protocol |
    /// | [`TDir`](crate::Refusal::TDir) | CHECK CONDITION | T_DIR does not fit the protocol |
    /// | [`NoBlock`](crate::Refusal::NoBlock) | CHECK CONDITION | in the later edition: logical sectors are to be counted, and there is no block |
    /// | [`LengthZero`](crate::Refusal::LengthZero) | CHECK CONDITION | the protocol moves data, and the length is 0 |
    /// | [`AboveDeclared`](crate::Refusal::AboveDeclared) | CHECK CONDITION | the length is more than the host declared |
    ///
    /// # Examples
    ///
    /// ```
    /// use piongseut::{Edition, Form, Record, Refusal, State, Submit, Submitted};
    ///
    /// let mut record = Record::empty();
    /// let mut sense = [0xEE; 22];
    /// let mut command = [0; 16];
    /// command[..3].copy_from_slice(&[0x85, 15 << 1, 0x00]);
    /// let report = Submit {
    ///     command: &command,
    ///     registers: &[0, 0, 0xFF, 0, 0, 0, 0, 0, 0, 0, 0x50],
    ///     block: &[],
    ///     declared: 0,
    ///     edition: Edition::First,
    ///     form: Form::Fixed,
    /// };
    /// // PROTOCOL 15 tells the registers, whatever is pending.
    /// assert_eq!(record.submit(&report, &mut sense), Ok(Submitted::Reported));
    /// assert_eq!(sense[..18], [0x70, 0, 1, 0, 0x50, 0, 0xFF, 10, 0, 0, 0, 0, 0, 0x1D, 0, 0, 0, 0]);
    /// assert_eq!(record.state(), State::Nothing);
    /// // A byte too few in the sense room, and nothing is written.
    /// let refused = record.submit(&report, &mut sense[..21]).unwrap_err();
    /// assert_eq!(refused.refusal, Refusal::Size);
    /// ```
    pub fn submit(&mut self, lent: &Submit, sense: &mut [u8]) -> Result<Submitted, Refused> {
        // SAFETY: each pointer is a slice's, with its size, or this record's,
        // which is aligned; record and sense are lent with `&mut`, so they
        // overlap none of the others.
        let answer = unsafe {
            ffi::piongseut_submit(
                &mut self.0,
                lent.command.as_ptr(),
                lent.command.len(),
                lent.registers.as_ptr(),
                lent.registers.len(),
                lent.block.as_ptr(),
                lent.block.len(),
                lent.declared,
                lent.edition.number(),
                lent.form.number(),
                sense.as_mut_ptr(),
                sense.len(),
            )
        };
        Refused::given(answer.number, answer.status)?;
        Ok(match answer.status {
            ffi::NONE => Submitted::Taken(Order::of(&answer.order)),
            _ => Submitted::Reported,
        })
    }

    /// Ends the order that the record holds, with the registers that the drive
    /// left, 11 bytes, and empties the record. Where a reset is over an order,
    /// it is the reset that ends, and the order is lost.
    ///
    /// Lent to write, besides the record: sense room of at least
    /// [`SENSE_SIZE`](crate::SENSE_SIZE) bytes. `form` is that of the sense
    /// data, whatever it was when the command was submitted. Back comes CHECK
    /// CONDITION, with sense data that tell the registers, if the drive's status
    /// has bit 0 or 5 (key 0Bh) or the order asked for it (key 01h); else GOOD.
    ///
    /// # Refusals
    ///
    /// Neither has a status or sense data, and the record stays as it was.
    ///
    /// - [`Size`](crate::Refusal::Size): the registers have not 11 bytes, or the
    ///   sense room fewer than 22.
    /// - [`NothingPending`](crate::Refusal::NothingPending): the record holds
    ///   nothing.
    ///
    /// # Examples
    ///
    /// ```
    /// use piongseut::{Edition, Form, Record, Refusal, Status, Submit};
    ///
    /// let mut record = Record::empty();
    /// let mut sense = [0xEE; 22];
    /// let registers = [0, 0, 0xFF, 0, 0, 0, 0, 0, 0, 0, 0x50];
    /// let nothing = record.complete(&registers, Form::Descriptor, &mut sense).unwrap_err();
    /// assert_eq!((nothing.refusal, nothing.status), (Refusal::NothingPending, Status::None));
    ///
    /// // CHECK POWER MODE in ATA PASS-THROUGH (16), with CK_COND.
    /// let mut command = [0; 16];
    /// command[..3].copy_from_slice(&[0x85, 3 << 1, 0x20]);
    /// command[14] = 0xE5;
    /// let submit = Submit {
    ///     command: &command,
    ///     registers: &registers,
    ///     block: &[],
    ///     declared: 0,
    ///     edition: Edition::First,
    ///     form: Form::Descriptor,
    /// };
    /// record.submit(&submit, &mut sense)?;
    /// let ended = record.complete(&registers, Form::Descriptor, &mut sense)?;
    /// assert_eq!((ended.status, ended.lost), (Status::CheckCondition, None));
    /// assert_eq!(sense[..4], [0x72, 0x01, 0x00, 0x1D]);
    /// assert_eq!(sense[11..], registers);
    /// # Ok::<(), piongseut::Refused>(())
    /// ```
    pub fn complete(
        &mut self,
        registers: &[u8],
        form: Form,
        sense: &mut [u8],
    ) -> Result<Completed, Refused> {
        // SAFETY: as in `submit`.
        let answer = unsafe {
            ffi::piongseut_complete(
                &mut self.0,
                registers.as_ptr(),
                registers.len(),
                form.number(),
                sense.as_mut_ptr(),
                sense.len(),
            )
        };
        Refused::given(answer.number, answer.status)?;
        Ok(Completed {
            status: Status::of(answer.status),
            lost: (answer.lost != 0).then(|| Protocol::of(answer.lost_protocol)),
        })
    }

    /// What it holds.
    pub fn state(&self) -> State {
        let order = Order::of(&self.0.order);
        match self.0.state {
            ffi::STATE_NOTHING => State::Nothing,
            ffi::STATE_RESET_OVER_ORDER => State::ResetOverOrder {
                reset: order,
                order: Order::of(&self.0.older),
            },
            _ => State::Order(order),
        }
    }

    /// The record of these bytes, as [`to_bytes`](Record::to_bytes) gives them,
    /// to take up what was pending before a host began anew. All bytes are a
    /// record.
    ///
    /// ```
    /// use piongseut::Record;
    ///
    /// let record = Record::empty();
    /// assert_eq!(Record::from_bytes(record.to_bytes()), record);
    /// assert_eq!(Record::from_bytes([0xA5; 60]).to_bytes(), [0xA5; 60]);
    /// ```
    pub fn from_bytes(bytes: [u8; 60]) -> Record {
        // SAFETY: the struct has as many bytes, and no padding: all are numbers.
        Record(unsafe { core::mem::transmute::<[u8; 60], ffi::Record>(bytes) })
    }

    /// Its bytes, as C has them in memory.
    pub fn to_bytes(&self) -> [u8; 60] {
        // SAFETY: as in `from_bytes`.
        unsafe { core::mem::transmute::<ffi::Record, [u8; 60]>(self.0) }
    }
}
