//! The numbers that come back and that are stated, each by its name.

use crate::ffi;
use core::fmt;

/// An enum with a variant for each number, and one for numbers that none has.
macro_rules! numbered {
    (
        $(#[$of_enum:meta])*
        $name:ident { $( $(#[$of_variant:meta])* $variant:ident = $number:path, )* }
    ) => {
        $(#[$of_enum])*
        #[derive(Clone, Copy, Debug, PartialEq, Eq, Hash)]
        pub enum $name {
            $( $(#[$of_variant])* $variant, )*
            /// A number that is none of these. The board gives none such.
            Other(u8),
        }

        impl $name {
            /// The number, as the rule book and the C header have it.
            pub const fn number(self) -> u8 {
                match self {
                    $( $name::$variant => $number, )*
                    $name::Other(number) => number,
                }
            }

            /// The name of a number; [`Other`](Self::Other) for one that has none.
            pub const fn of(number: u8) -> $name {
                match number {
                    $( $number => $name::$variant, )*
                    _ => $name::Other(number),
                }
            }
        }
    };
}

numbered! {
    /// The status of a command, as SCSI numbers it.
    Status {
        /// The command ended well.
        Good = ffi::GOOD,
        /// Sense data tell more.
        CheckCondition = ffi::CHECK_CONDITION,
        /// An order is pending, and this one has to wait for its end.
        Busy = ffi::BUSY,
        /// There is no status.
        None = ffi::NONE,
    }
}

numbered! {
    /// Why a call was refused: the rows of the table of refusals (RULES 3). An
    /// entry is a function of this crate. A refusal changes nothing that was
    /// lent, but where there is a key (*) the sense room, if the function is
    /// lent one: sense data then stand at its front, 8 bytes in the descriptor
    /// form, 18 in the fixed one. A block is damaged if the low byte of its
    /// word 255 is A5h, and its 512 bytes do not sum to 0 modulo 256. 0 is no
    /// refusal and has no name.
    Refusal {
        /// 1: a lent piece or an intake's claim has a size that the entry does
        /// not take.
        Size = ffi::REFUSED_SIZE,
        /// 2 (*): the command has no byte, or fewer than its opcode asks for.
        Short = ffi::REFUSED_SHORT,
        /// 3 (*): byte 0 of the command is no opcode of this entry.
        Opcode = ffi::REFUSED_OPCODE,
        /// 4 (*): NACA; of INQUIRY also CMDDT, or a page code other than 00h
        /// without EVPD.
        Field = ffi::REFUSED_FIELD,
        /// 5 (*): EVPD asks for another page than 00h, 80h, 83h or 89h.
        Page = ffi::REFUSED_PAGE,
        /// 6 (*): there is no block, and standard data, 80h, 83h or logical
        /// sectors need one.
        NoBlock = ffi::REFUSED_NO_BLOCK,
        /// 7 (*): a packet drive's own page 00h is to be extended and is
        /// unusable.
        Unusable = ffi::REFUSED_UNUSABLE,
        /// 8: more bytes are to be written than the room has.
        Room = ffi::REFUSED_ROOM,
        /// 9 (*): PROTOCOL is one of 2, 7, 12, 13, 14.
        Protocol = ffi::REFUSED_PROTOCOL,
        /// 10, BUSY: PROTOCOL 0 or 1 while a reset is pending; another but 15
        /// while anything is.
        Pending = ffi::REFUSED_PENDING,
        /// 11 (*): T_LENGTH is not one for the protocol.
        TLength = ffi::REFUSED_T_LENGTH,
        /// 12 (*): T_DIR is not one for the protocol.
        TDir = ffi::REFUSED_T_DIR,
        /// 13 (*): the protocol moves data, and the length is 0.
        LengthZero = ffi::REFUSED_LENGTH_ZERO,
        /// 14 (*): the length is more than the host declared.
        AboveDeclared = ffi::REFUSED_ABOVE_DECLARED,
        /// 15: complete is called and the record holds nothing.
        NothingPending = ffi::REFUSED_NOTHING_PENDING,
        /// 16: the page to be read is none that the writer of page 83h makes.
        NotAPage = ffi::REFUSED_NOT_A_PAGE,
        /// 17: the census has 65,535 blocks, or a grouping does not sum to its
        /// blocks.
        Census = ffi::REFUSED_CENSUS,
        /// 18: a block is damaged, lent or in a capture; of submit, in the
        /// later edition.
        Damaged = ffi::REFUSED_DAMAGED,
        /// 19 (*): page 83h is to be written, and the chosen relative port is
        /// not 1 or 2.
        Port = ffi::REFUSED_PORT,
        /// 20 (*): opcode 7Fh, and bytes 7 to 9 are not 18h 1Fh F0h.
        ServiceAction = ffi::REFUSED_SERVICE_ACTION,
        /// 21: the layout of a capture is broken, or its page 89h has not 572
        /// bytes.
        Capture = ffi::REFUSED_CAPTURE,
        /// 22: a capture tells of a packet drive.
        Packet = ffi::REFUSED_PACKET,
        /// 23: no command of 12 or 16 bytes makes the order to be built.
        Order = ffi::REFUSED_ORDER,
    }
}

numbered! {
    /// What a drive does with an order, by SAT's names.
    Protocol {
        /// 0: a hard reset.
        AtaHardwareReset = ffi::PROTOCOL_ATA_HARDWARE_RESET,
        /// 1: a software reset.
        Srst = ffi::PROTOCOL_SRST,
        /// 3: a command without data.
        NonData = ffi::PROTOCOL_NON_DATA,
        /// 4
        PioDataIn = ffi::PROTOCOL_PIO_DATA_IN,
        /// 5
        PioDataOut = ffi::PROTOCOL_PIO_DATA_OUT,
        /// 6: data either way.
        Dma = ffi::PROTOCOL_DMA,
        /// 8
        ExecuteDeviceDiagnostic = ffi::PROTOCOL_EXECUTE_DEVICE_DIAGNOSTIC,
        /// 9
        DeviceReset = ffi::PROTOCOL_DEVICE_RESET,
        /// 10
        UdmaDataIn = ffi::PROTOCOL_UDMA_DATA_IN,
        /// 11
        UdmaDataOut = ffi::PROTOCOL_UDMA_DATA_OUT,
        /// 15: reports the registers, and makes no order.
        ReturnResponseInformation = ffi::PROTOCOL_RETURN_RESPONSE_INFORMATION,
    }
}

numbered! {
    /// Which way an order's data go.
    Direction {
        /// 0: there are none.
        None = ffi::DIRECTION_NONE,
        /// 1
        FromDrive = ffi::DIRECTION_FROM_DRIVE,
        /// 2
        ToDrive = ffi::DIRECTION_TO_DRIVE,
    }
}

/// That of number 0.
impl Default for Protocol {
    fn default() -> Protocol {
        Protocol::AtaHardwareReset
    }
}

/// No data.
impl Default for Direction {
    fn default() -> Direction {
        Direction::None
    }
}

/// The form of sense data that a caller asks for (RULES 10). A host whose
/// programs read the registers of ended commands, as Linux has them, asks for
/// the descriptor form.
#[derive(Clone, Copy, Debug, PartialEq, Eq, Hash)]
pub enum Form {
    /// None is stated, and the form is fixed.
    Unstated,
    /// 18 bytes, of a refusal and with registers.
    Fixed,
    /// 8 bytes of a refusal, 22 with registers.
    Descriptor,
}

impl Form {
    /// The number, as the C header has it.
    pub const fn number(self) -> u8 {
        match self {
            Form::Unstated => ffi::SENSE_UNSTATED,
            Form::Fixed => ffi::SENSE_FIXED,
            Form::Descriptor => ffi::SENSE_DESCRIPTOR,
        }
    }
}

/// No form is stated.
impl Default for Form {
    fn default() -> Form {
        Form::Unstated
    }
}

/// The edition of SAT by which a command is read (RULES 8). In the later one
/// the 32-byte command is served, and T_TYPE is looked at.
#[derive(Clone, Copy, Debug, PartialEq, Eq, Hash)]
pub enum Edition {
    /// The first, which looks at no block.
    First,
    /// The later.
    Later,
}

impl Edition {
    /// The number, as the C header has it.
    pub const fn number(self) -> u8 {
        match self {
            Edition::First => ffi::EDITION_FIRST,
            Edition::Later => ffi::EDITION_LATER,
        }
    }
}

/// The first.
impl Default for Edition {
    fn default() -> Edition {
        Edition::First
    }
}

impl Refusal {
    /// That of a number that came back, if it is one: `Ok` for 0.
    pub(crate) const fn given(number: u8) -> Result<(), Refusal> {
        match number {
            ffi::ACCEPTED => Ok(()),
            _ => Err(Refusal::of(number)),
        }
    }
}

/// A refusal of an entry that gives a status.
#[derive(Clone, Copy, Debug, PartialEq, Eq, Hash)]
pub struct Refused {
    /// Why.
    pub refusal: Refusal,
    /// CHECK CONDITION where sense data were written, BUSY where an order is
    /// pending, else none: the call itself was wrong.
    pub status: Status,
}

impl Refused {
    pub(crate) const fn given(number: u8, status: u8) -> Result<(), Refused> {
        match Refusal::given(number) {
            Ok(()) => Ok(()),
            Err(refusal) => Err(Refused {
                refusal,
                status: Status::of(status),
            }),
        }
    }
}

impl fmt::Display for Refusal {
    fn fmt(&self, to: &mut fmt::Formatter) -> fmt::Result {
        write!(to, "refused {}", self.number())
    }
}

impl fmt::Display for Refused {
    fn fmt(&self, to: &mut fmt::Formatter) -> fmt::Result {
        write!(to, "{}, status {:02X}h", self.refusal, self.status.number())
    }
}

#[cfg(feature = "std")]
impl std::error::Error for Refusal {}

#[cfg(feature = "std")]
impl std::error::Error for Refused {}
