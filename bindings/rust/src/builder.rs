//! The builder: the command that makes an order (RULES 16).

use crate::{ffi, front, Order, Refusal, COMMAND_SIZE};

/// A command that was built.
#[derive(Clone, Copy, Debug, PartialEq, Eq, Hash)]
pub struct Command {
    bytes: [u8; COMMAND_SIZE],
    size: u8,
}

impl Command {
    /// Its bytes, 12 or 16, as they are sent.
    pub fn bytes(&self) -> &[u8] {
        front(&self.bytes, self.size.into())
    }
}

/// Builds the command that makes an order: ATA PASS-THROUGH (12) where its
/// `extend` is false, else ATA PASS-THROUGH (16). [Submitted](crate::Record::submit)
/// in the first edition, with nothing pending and with the order's length
/// declared, it is accepted and gives the order back.
///
/// # Refusals
///
/// [`Order`](Refusal::Order), exactly where no command of either form gives the
/// order, whatever is declared: a protocol that is none of 0, 1, 3 to 6 and 8 to
/// 11; an auxiliary number that is not 0; quiet seconds that are none of 0, 2, 6
/// and 14; sectors per block that are no power of two up to 128; a register above
/// FFh without `extend`; with data a length of 0, or a direction that the protocol
/// does not have; without data a length or a direction; and a reset with
/// another number of sectors per block than 1, or any other field not 0.
///
/// # Examples
///
/// ```
/// use piongseut::{build, Direction, Order, Protocol, Refusal};
///
/// let identify = Order {
///     length: 512,
///     count: 1,
///     sectors_per_block: 1,
///     command: 0xEC,
///     protocol: Protocol::PioDataIn,
///     direction: Direction::FromDrive,
///     ..Order::default()
/// };
/// let command = build(&identify)?;
/// assert_eq!(command.bytes(), [0xA1, 0x08, 0x0E, 0, 1, 0, 0, 0, 0, 0xEC, 0, 0]);
///
/// let backwards = Order { direction: Direction::ToDrive, ..identify };
/// assert_eq!(build(&backwards), Err(Refusal::Order));
/// # Ok::<(), Refusal>(())
/// ```
pub fn build(order: &Order) -> Result<Command, Refusal> {
    // SAFETY: nothing is lent.
    let answer = unsafe { ffi::piongseut_build(order.in_c()) };
    Refusal::given(answer.number)?;
    Ok(Command {
        bytes: answer.command,
        size: answer.size,
    })
}
