//! Another maker's bridge (RULES 15).

use crate::{ffi, Refusal};

/// A field of a capture, by its tag.
#[derive(Clone, Copy, Debug, PartialEq, Eq, Hash)]
pub enum Field {
    /// Tag 01h: standard data.
    Standard,
    /// Tag 00h: page 00h.
    Page00,
    /// Tag 80h: page 80h.
    Page80,
    /// Tag 83h: page 83h.
    Page83,
    /// Tag 89h: page 89h.
    Page89,
    /// A tag that no field has. The board gives none such.
    Other(u8),
}

impl Field {
    /// The tag.
    pub const fn tag(self) -> u8 {
        match self {
            Field::Standard => 0x01,
            Field::Page00 => 0x00,
            Field::Page80 => 0x80,
            Field::Page83 => 0x83,
            Field::Page89 => 0x89,
            Field::Other(tag) => tag,
        }
    }

    /// The field of a tag; [`Other`](Field::Other) for one that no field has.
    pub const fn of(tag: u8) -> Field {
        match tag {
            0x01 => Field::Standard,
            0x00 => Field::Page00,
            0x80 => Field::Page80,
            0x83 => Field::Page83,
            0x89 => Field::Page89,
            _ => Field::Other(tag),
        }
    }
}

/// What the board makes of a capture.
#[derive(Clone, Copy, Debug, PartialEq, Eq, Hash)]
pub enum Checked {
    /// Each field is what the board's own writers give.
    Accepted,
    /// One is not.
    Differs {
        /// The first field at fault.
        field: Field,
        /// Its first differing byte, counted from its first byte. Where one is
        /// the start of the other, the shorter size.
        place: usize,
    },
    /// It cannot be judged.
    Refused {
        /// [`Capture`](Refusal::Capture) where its layout is broken or its page
        /// 89h has not 572 bytes, [`Packet`](Refusal::Packet) of a packet
        /// drive, [`Damaged`](Refusal::Damaged) where the block in page 89h is
        /// damaged; the first of these.
        refusal: Refusal,
        /// Of `Capture`, where the broken field's tag is in the capture, or the
        /// capture's size where page 89h is missing; else 0.
        place: usize,
    },
}

/// Checks a capture of any size: fields of a tag, two length bytes, high byte
/// first, and as many bytes, one behind the other. Tags rise; 89h is there, the
/// last. Each field is held beside what the board gives for the block, the texts
/// and the signature of its page 89h; page 83h beside that of every choice of
/// ports, where the furthest place counts.
///
/// # Examples
///
/// ```
/// use piongseut::{check, Checked, Field, Refusal};
///
/// let mut capture = vec![0x89, 0x02, 0x3C]; // page 89h, 572 bytes
/// capture.extend([0x00, 0x89, 0x02, 0x38]);
/// capture.extend([0; 52]);
/// capture.push(0xEC);
/// capture.extend([0; 515]);
/// assert_eq!(check(&capture), Checked::Accepted);
///
/// capture[3 + 56] = 0xA1; // another command code
/// assert_eq!(check(&capture), Checked::Differs { field: Field::Page89, place: 56 });
///
/// let refusal = Refusal::Capture;
/// assert_eq!(check(&capture[..9]), Checked::Refused { refusal, place: 0 });
/// ```
pub fn check(capture: &[u8]) -> Checked {
    // SAFETY: the pointer is the slice's, with its size.
    let answer = unsafe { ffi::piongseut_check(capture.as_ptr(), capture.len()) };
    let place = answer.place;
    match (Refusal::given(answer.number), answer.accepted) {
        (Err(refusal), _) => Checked::Refused { refusal, place },
        (Ok(()), 0) => Checked::Differs {
            field: Field::of(answer.tag),
            place,
        },
        (Ok(()), _) => Checked::Accepted,
    }
}
