//! The roll (RULES 11).

use crate::{ffi, Refusal};

/// How many blocks a roll has, and how many drives these are.
#[derive(Clone, Copy, Debug, PartialEq, Eq, Hash)]
pub struct Roll {
    /// Blocks, and rows that were written.
    pub blocks: u16,
    /// Different drives.
    pub drives: u16,
}

/// The roll of up to 64 IDENTIFY blocks of 512 bytes that stand one after the
/// other.
///
/// Lent to write: a row number for each block. Rows run from 1 by first
/// appearance, and two blocks have the same row exactly if they are the same
/// drive. Entries past the blocks stay as they were.
///
/// # Refusals
///
/// No row is written.
///
/// - [`Size`](Refusal::Size): the blocks' bytes are no multiple of 512 or more
///   than 32,768, or there are fewer rows than blocks.
/// - [`Damaged`](Refusal::Damaged): one of the blocks is damaged.
///
/// # Examples
///
/// ```
/// use piongseut::{roll, Refusal, Roll};
///
/// let mut blocks = [0x20; 3 * 512];
/// blocks[512 + 54] = b'M'; // the second drive has another model
/// let mut rows = [0; 4];
/// assert_eq!(roll(&blocks, &mut rows), Ok(Roll { blocks: 3, drives: 2 }));
/// assert_eq!(rows, [1, 2, 1, 0]);
/// assert_eq!(roll(&blocks, &mut rows[..2]), Err(Refusal::Size));
/// ```
pub fn roll(blocks: &[u8], rows: &mut [u16]) -> Result<Roll, Refusal> {
    // SAFETY: each pointer is a slice's, with its size, and so aligned; the rows
    // are lent with `&mut`, so they do not overlap the blocks.
    let answer = unsafe {
        ffi::piongseut_roll(blocks.as_ptr(), blocks.len(), rows.as_mut_ptr(), rows.len())
    };
    Refusal::given(answer.number)?;
    Ok(Roll {
        blocks: answer.blocks,
        drives: answer.drives,
    })
}
