//! INQUIRY (RULES 4).

use crate::{ffi, front, Form, Ports, Refused};

/// What is lent to read to an INQUIRY.
#[derive(Clone, Copy, Debug)]
pub struct Inquiry<'a> {
    /// The command bytes as the host sent them; those past the sixth are
    /// ignored.
    pub command: &'a [u8],
    /// The drive's IDENTIFY block, 512 bytes, or none where it gave none.
    pub block: &'a [u8],
    /// The drive's signature, 20 bytes. Bytes 5 and 6 are 14h EBh of a packet
    /// drive.
    pub signature: &'a [u8],
    /// The translator's texts for page 89h, 28 bytes: vendor 8, product 16,
    /// revision 4.
    pub texts: &'a [u8],
    /// What the drive itself answers to this command; looked at of packet
    /// drives alone.
    pub reply: &'a [u8],
    /// The target ports that page 83h tells behind the drive's name.
    pub ports: Ports<'a>,
    /// The form of the sense data of a refusal.
    pub form: Form,
}

/// What is shown to the host.
#[derive(Clone, Copy, Debug, PartialEq, Eq)]
pub enum Shown<'a> {
    /// The front of the drive's own reply: of a packet drive.
    Reply(&'a [u8]),
    /// The front of the room.
    Room(&'a [u8]),
}

impl<'a> Shown<'a> {
    /// The bytes that are shown.
    pub fn bytes(self) -> &'a [u8] {
        match self {
            Shown::Reply(bytes) | Shown::Room(bytes) => bytes,
        }
    }
}

/// Answers an INQUIRY command (12h) with status GOOD, or refuses it.
///
/// Lent to write: the room, of which [`PAGE89_SIZE`](crate::PAGE89_SIZE) bytes
/// are enough for every page, and sense room of at least
/// [`SENSE_SIZE`](crate::SENSE_SIZE) bytes. Back comes what is shown, a part of
/// the room or of the drive's reply, and never more than the command's
/// allocation length; what is behind it in the room stays as it was.
///
/// # Refusals
///
/// In the order in which they are asked; sense data stand in the sense room
/// where the status is CHECK CONDITION.
///
/// | Refusal | Status | Given when |
/// |---|---|---|
/// | [`Size`](crate::Refusal::Size) | none | the block has neither 512 bytes nor none, the signature not 20, the texts not 28, the ports' address not 8, or the sense room has fewer than 22 |
/// | [`Damaged`](crate::Refusal::Damaged) | none | the block is damaged |
/// | [`Short`](crate::Refusal::Short) | CHECK CONDITION | there are no command bytes, or behind `Opcode` fewer than 6 |
/// | [`Opcode`](crate::Refusal::Opcode) | CHECK CONDITION | byte 0 is not 12h |
/// | [`Field`](crate::Refusal::Field) | CHECK CONDITION | NACA, CMDDT, or a page code without EVPD |
/// | [`Page`](crate::Refusal::Page) | CHECK CONDITION | EVPD and a page that is not 00h, 80h, 83h or 89h |
/// | [`NoBlock`](crate::Refusal::NoBlock) | CHECK CONDITION | there is no block, for standard data, 80h and 83h |
/// | [`Port`](crate::Refusal::Port) | CHECK CONDITION | page 83h is asked, and the relative port is not 1 or 2 |
/// | [`Unusable`](crate::Refusal::Unusable) | CHECK CONDITION | page 00h of a packet drive, whose own one cannot be used |
/// | [`Room`](crate::Refusal::Room) | none | the room is shorter than the bytes to write |
///
/// `Field`, `Page`, `NoBlock` and `Port` are not given for packet drives.
///
/// # Examples
///
/// ```
/// use piongseut::{inquiry, Form, Inquiry, Ports, Refusal, Shown, Status};
///
/// // A drive with a name: word 87 says so, and words 108 to 111 hold it.
/// let mut block = [0; 512];
/// block[175] = 0x41;
/// block[216..224].copy_from_slice(&[0x00, 0x50, 0x00, 0xC5, 0x34, 0x12, 0x78, 0x56]);
/// let page83 = Inquiry {
///     command: &[0x12, 0x01, 0x83, 0x00, 0xFF, 0x00],
///     block: &block,
///     signature: &[0; 20],
///     texts: &[0x20; 28],
///     reply: &[],
///     ports: Ports { relative: Some(2), sas: None },
///     form: Form::Descriptor,
/// };
/// let (mut room, mut sense) = ([0xEE; 100], [0; 22]);
/// let page = [
///     0x00, 0x83, 0x00, 0x14, // page 83h, 20 bytes follow
///     0x01, 0x03, 0x00, 0x08, 0x50, 0x00, 0xC5, 0x00, 0x12, 0x34, 0x56, 0x78, // the name
///     0x61, 0x94, 0x00, 0x04, 0x00, 0x00, 0x00, 0x02, // relative target port 2
/// ];
/// assert_eq!(inquiry(&page83, &mut room, &mut sense), Ok(Shown::Room(&page)));
/// assert!(room[page.len()..].iter().all(|&byte| byte == 0xEE));
///
/// // Page B0h is none that the board has.
/// let other = Inquiry { command: &[0x12, 0x01, 0xB0, 0x00, 0xFF, 0x00], ..page83 };
/// let refused = inquiry(&other, &mut room, &mut sense).unwrap_err();
/// assert_eq!((refused.refusal, refused.status), (Refusal::Page, Status::CheckCondition));
/// assert_eq!(sense[..8], [0x72, 0x05, 0x24, 0x00, 0x00, 0x00, 0x00, 0x00]);
///
/// // A packet drive answers for itself, but for pages 00h and 89h.
/// let mut signature = [0; 20];
/// signature[5..7].copy_from_slice(&[0x14, 0xEB]);
/// let packet = Inquiry {
///     command: &[0x12, 0x00, 0x00, 0x00, 0x05, 0x00],
///     signature: &signature,
///     reply: &[0x05, 0x80, 0x05, 0x32, 0x5B, 0x00],
///     ..page83
/// };
/// let shown = inquiry(&packet, &mut room, &mut sense);
/// assert_eq!(shown, Ok(Shown::Reply(&[0x05, 0x80, 0x05, 0x32, 0x5B])));
/// ```
///
/// What is shown is lent out of the room, so the room cannot be lent again
/// before it was looked at; nor can a piece be lent both to read and to write:
///
/// ```compile_fail,E0499
/// # use piongseut::{inquiry, Inquiry};
/// # fn twice(asked: Inquiry, room: &mut [u8], sense: &mut [u8]) {
/// let first = inquiry(&asked, room, sense);
/// let second = inquiry(&asked, room, sense);
/// assert_eq!(first, second);
/// # }
/// ```
///
/// ```compile_fail,E0502
/// # use piongseut::{inquiry, Inquiry};
/// # fn both(asked: Inquiry, room: &mut [u8], sense: &mut [u8]) {
/// let asked = Inquiry { reply: &room[..36], ..asked };
/// let shown = inquiry(&asked, room, sense);
/// # }
/// ```
pub fn inquiry<'a>(
    lent: &Inquiry<'a>,
    room: &'a mut [u8],
    sense: &mut [u8],
) -> Result<Shown<'a>, Refused> {
    let (ports, address) = lent.ports.in_c();
    // SAFETY: each pointer is a slice's, with its size; the two that are written
    // are lent with `&mut`, so they overlap none of the others.
    let answer = unsafe {
        ffi::piongseut_inquiry(
            lent.command.as_ptr(),
            lent.command.len(),
            lent.block.as_ptr(),
            lent.block.len(),
            lent.signature.as_ptr(),
            lent.signature.len(),
            lent.texts.as_ptr(),
            lent.texts.len(),
            lent.reply.as_ptr(),
            lent.reply.len(),
            ports,
            address.as_ptr(),
            address.len(),
            lent.form.number(),
            room.as_mut_ptr(),
            room.len(),
            sense.as_mut_ptr(),
            sense.len(),
        )
    };
    Refused::given(answer.number, answer.status)?;
    Ok(match answer.shown {
        ffi::SHOWN_REPLY => Shown::Reply(front(lent.reply, answer.count)),
        _ => Shown::Room(front(room, answer.count)),
    })
}
