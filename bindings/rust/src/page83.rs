//! Page 83h, which names a drive (RULES 6.4).

use crate::{ffi, front, Refusal, ADDRESS_SIZE, MODEL_SIZE, SERIAL_SIZE, WWN_SIZE};

/// The target ports that page 83h tells behind the drive's name, by which a host
/// that reaches the drive on two paths tells them apart: none, one or both.
///
/// ```
/// use piongseut::Ports;
///
/// let address = [0x50, 0x01, 0x43, 0x80, 0x12, 0x34, 0x56, 0x7A];
/// let none = Ports::default();
/// let first = Ports { relative: Some(1), ..none };
/// let both = Ports { sas: Some(&address), ..first };
/// assert_eq!((both.relative, none.sas), (Some(1), None));
/// ```
#[derive(Clone, Copy, Debug, Default, PartialEq, Eq, Hash)]
pub struct Ports<'a> {
    /// The number of the relative target port, 1 or 2.
    pub relative: Option<u16>,
    /// The address of the SAS target port, 8 bytes.
    pub sas: Option<&'a [u8]>,
}

impl<'a> Ports<'a> {
    /// As the header has it: what is chosen, and the address, no bytes where it
    /// is not.
    pub(crate) fn in_c(&self) -> (ffi::Ports, &'a [u8]) {
        let relative = self.relative.map_or(ffi::PORT_NONE, |_| ffi::PORT_RELATIVE);
        let sas = self.sas.map_or(ffi::PORT_NONE, |_| ffi::PORT_SAS);
        let ports = ffi::Ports {
            chosen: relative | sas,
            relative: self.relative.unwrap_or(0),
        };
        (ports, self.sas.unwrap_or(&[]))
    }
}

/// The name of a drive.
#[derive(Clone, Copy, Debug, PartialEq, Eq, Hash)]
pub enum Name {
    /// A world wide name.
    Wwn([u8; WWN_SIZE]),
    /// Model and serial number, with spaces for zeros.
    Text {
        /// The model.
        model: [u8; MODEL_SIZE],
        /// The serial number.
        serial: [u8; SERIAL_SIZE],
    },
    /// A form that is neither of these, by its number. The board gives none
    /// such.
    Other(u8),
}

/// What a page 83h tells.
#[derive(Clone, Copy, Debug, PartialEq, Eq, Hash)]
pub struct Page83 {
    /// The drive's name.
    pub name: Name,
    /// The number of the relative target port, if it stood there.
    pub relative: Option<u16>,
    /// The address of the SAS target port, if it stood there.
    pub sas: Option<[u8; ADDRESS_SIZE]>,
}

impl Page83 {
    /// The ports, as they can be lent to the writer again.
    pub fn ports(&self) -> Ports<'_> {
        Ports {
            relative: self.relative,
            sas: self.sas.as_ref().map(|address| &address[..]),
        }
    }
}

/// Writes the page 83h of an IDENTIFY block, 512 bytes, with the ports that are
/// chosen behind the drive's name.
///
/// Lent to write: the room; [`PAGE83_MOST_SIZE`](crate::PAGE83_MOST_SIZE) bytes
/// are enough. Back comes the page, the front of the room: 16 bytes for a world
/// wide name, 76 for model and serial number, and 8, 12 or 20 more with ports.
///
/// # Refusals
///
/// In the order in which they are asked; nothing is written.
///
/// - [`Size`](Refusal::Size): the block has not 512 bytes, or the ports' address
///   not 8.
/// - [`Damaged`](Refusal::Damaged): the block is damaged.
/// - [`Port`](Refusal::Port): the relative port is not 1 or 2.
/// - [`Room`](Refusal::Room): the room is shorter than the page.
///
/// # Examples
///
/// ```
/// use piongseut::{read_page83, write_page83, Name, Ports, Refusal};
///
/// let mut block = [0x20; 512];
/// block[54..60].copy_from_slice(b"oMed l"); // the model, turned
/// let address = [0x50, 0x01, 0x43, 0x80, 0x12, 0x34, 0x56, 0x7A];
/// let ports = Ports { relative: Some(1), sas: Some(&address) };
/// let mut room = [0; 96];
/// let page = write_page83(&block, ports, &mut room)?;
/// assert_eq!(page.len(), 76 + 20);
///
/// let read = read_page83(page)?;
/// assert_eq!(read.ports(), ports);
/// match read.name {
///     Name::Text { model, serial } => {
///         assert_eq!(model[..6], *b"Model ");
///         assert_eq!(serial, [b' '; 20]);
///     }
///     _ => unreachable!("the block carries no name"),
/// }
/// let third = Ports { relative: Some(3), ..ports };
/// assert_eq!(write_page83(&block, third, &mut room), Err(Refusal::Port));
/// # Ok::<(), Refusal>(())
/// ```
pub fn write_page83<'r>(
    block: &[u8],
    ports: Ports,
    room: &'r mut [u8],
) -> Result<&'r [u8], Refusal> {
    let (ports, address) = ports.in_c();
    // SAFETY: each pointer is a slice's, with its size; the room is lent with
    // `&mut`, so it overlaps neither of the others.
    let answer = unsafe {
        ffi::piongseut_write_page83(
            block.as_ptr(),
            block.len(),
            ports,
            address.as_ptr(),
            address.len(),
            room.as_mut_ptr(),
            room.len(),
        )
    };
    Refusal::given(answer.number)?;
    Ok(front(room, answer.count))
}

/// Reads one complete page 83h, with nothing after it: the name and the ports
/// that went in.
///
/// # Refusals
///
/// [`NotAPage`](Refusal::NotAPage) for every page that the writer cannot make.
///
/// # Examples
///
/// ```
/// use piongseut::{read_page83, Name, Refusal};
///
/// let page = [
///     0x00, 0x83, 0x00, 0x0C, //
///     0x01, 0x03, 0x00, 0x08, 0x50, 0x00, 0xC5, 0x00, 0x12, 0x34, 0x56, 0x78,
/// ];
/// let read = read_page83(&page)?;
/// let name = [0x50, 0x00, 0xC5, 0x00, 0x12, 0x34, 0x56, 0x78];
/// assert_eq!(read.name, Name::Wwn(name));
/// assert_eq!((read.relative, read.sas), (None, None));
/// assert_eq!(read_page83(&page[..15]), Err(Refusal::NotAPage));
/// # Ok::<(), Refusal>(())
/// ```
pub fn read_page83(page: &[u8]) -> Result<Page83, Refusal> {
    // SAFETY: the pointer is the slice's, with its size.
    let answer = unsafe { ffi::piongseut_read_page83(page.as_ptr(), page.len()) };
    Refusal::given(answer.number)?;
    let chosen = |port| answer.ports.chosen & port != 0;
    Ok(Page83 {
        name: name(&answer),
        relative: chosen(ffi::PORT_RELATIVE).then_some(answer.ports.relative),
        sas: chosen(ffi::PORT_SAS).then_some(answer.address),
    })
}

fn name(answer: &ffi::ReadPage83Answer) -> Name {
    match answer.form {
        ffi::FORM_WWN => Name::Wwn(part(&answer.name, 0)),
        ffi::FORM_TEXT => Name::Text {
            model: part(&answer.name, 0),
            serial: part(&answer.name, MODEL_SIZE),
        },
        form => Name::Other(form),
    }
}

/// As many of the bytes as the part has, from a place on; zeros behind them.
fn part<const SIZE: usize>(bytes: &[u8], from: usize) -> [u8; SIZE] {
    let mut part = [0; SIZE];
    for (to, byte) in part.iter_mut().zip(bytes.iter().skip(from)) {
        *to = *byte;
    }
    part
}
