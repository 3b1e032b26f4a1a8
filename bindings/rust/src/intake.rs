//! The intake: IDENTIFY data off the wire (RULES 12).

use crate::{ffi, front, Intake, Refusal};

/// What an intake took of a run.
#[derive(Clone, Copy, Debug, PartialEq, Eq, Hash)]
pub struct Took {
    /// How many bytes of the run, from its start.
    pub used: usize,
    /// Whether the intake has all 512 bytes now.
    pub complete: bool,
}

/// An intake that has nothing.
impl Default for Intake {
    fn default() -> Intake {
        Intake::empty()
    }
}

impl Intake {
    /// An intake that has nothing.
    pub fn empty() -> Intake {
        // SAFETY: nothing is lent.
        unsafe { ffi::piongseut_intake_empty() }
    }

    /// Takes a run, of any length, also of none. A complete intake uses nothing
    /// more.
    ///
    /// Lent to write: the store, 512 bytes, of which only those are written that
    /// the run's bytes go to.
    ///
    /// # Refusals
    ///
    /// [`Size`](Refusal::Size): a store not of 512 bytes, or an intake that
    /// claims more than 512. Intake and store stay as they were.
    ///
    /// # Examples
    ///
    /// ```
    /// use piongseut::{Intake, Refusal, Took};
    ///
    /// let (mut intake, mut store) = (Intake::empty(), [0xEE; 512]);
    /// let took = intake.take(&mut store, &[1, 2, 3])?;
    /// assert_eq!(took, Took { used: 3, complete: false });
    /// assert_eq!((store[..4].to_vec(), intake.sum), (vec![1, 2, 3, 0xEE], 6));
    /// assert_eq!(intake.take(&mut store[1..], &[4]), Err(Refusal::Size));
    /// # Ok::<(), Refusal>(())
    /// ```
    pub fn take(&mut self, store: &mut [u8], run: &[u8]) -> Result<Took, Refusal> {
        // SAFETY: each pointer is a slice's, with its size; the store is lent
        // with `&mut`, so it does not overlap the run.
        let answer = unsafe {
            ffi::piongseut_intake_take(
                *self,
                store.as_mut_ptr(),
                store.len(),
                run.as_ptr(),
                run.len(),
            )
        };
        Refusal::given(answer.number)?;
        *self = answer.next;
        Ok(Took {
            used: answer.used.into(),
            complete: answer.complete != 0,
        })
    }

    /// The block of a complete intake, which is all of its store, or no bytes of
    /// one that is not complete: what is lent as the block to
    /// [`inquiry`](crate::inquiry()) and [`write_page83`](crate::write_page83).
    ///
    /// # Refusals
    ///
    /// [`Size`](Refusal::Size): a store not of 512 bytes, or an intake that
    /// claims more than 512.
    ///
    /// # Examples
    ///
    /// ```
    /// use piongseut::{Intake, Refusal};
    ///
    /// let store = [0x5A; 512];
    /// let complete = Intake { have: 512, sum: 0 };
    /// assert_eq!(complete.block(&store), Ok(&store[..]));
    /// assert_eq!(Intake { have: 511, sum: 0 }.block(&store), Ok(&store[..0]));
    /// assert_eq!(Intake { have: 513, sum: 0 }.block(&store), Err(Refusal::Size));
    /// ```
    pub fn block<'s>(&self, store: &'s [u8]) -> Result<&'s [u8], Refusal> {
        // SAFETY: nothing is lent but numbers.
        let answer = unsafe { ffi::piongseut_intake_block(*self, store.len()) };
        Refusal::given(answer.number)?;
        Ok(front(store, answer.count))
    }
}

/// Gathers the blocks of a run of intakes, for [`roll`](crate::roll()): the
/// stores of those that are complete, in their order.
///
/// Lent to read: how many bytes each intake has, and their stores one after the
/// other, 512 bytes each. Lent to write: the room, where the blocks come to
/// stand one after the other. Back come the blocks, the front of the room.
///
/// # Refusals
///
/// In the order in which they are asked; nothing is written.
///
/// - [`Size`](Refusal::Size): stores of another size than 512 bytes an intake,
///   or an intake that claims more than 512.
/// - [`Damaged`](Refusal::Damaged): the block of a complete intake is damaged;
///   the stores of others are not asked.
/// - [`Room`](Refusal::Room): the room is shorter than the blocks.
///
/// # Examples
///
/// ```
/// use piongseut::{gather, roll, Refusal};
///
/// let stores = [[0x20; 512], [0x41; 512], [0x41; 512]].concat();
/// let (mut room, mut rows) = ([0; 3 * 512], [0; 3]);
/// // The first intake lacks a byte.
/// let blocks = gather(&[511, 512, 512], &stores, &mut room)?;
/// assert_eq!(blocks, &stores[512..]);
/// assert_eq!(roll(blocks, &mut rows)?.drives, 1);
/// assert_eq!(gather(&[512; 2], &stores, &mut room), Err(Refusal::Size));
/// # Ok::<(), Refusal>(())
/// ```
pub fn gather<'r>(haves: &[u16], stores: &[u8], room: &'r mut [u8]) -> Result<&'r [u8], Refusal> {
    // SAFETY: each pointer is a slice's, with its size, and so aligned; the room
    // is lent with `&mut`, so it overlaps neither of the others.
    let answer = unsafe {
        ffi::piongseut_intake_gather(
            haves.as_ptr(),
            haves.len(),
            stores.as_ptr(),
            stores.len(),
            room.as_mut_ptr(),
            room.len(),
        )
    };
    Refusal::given(answer.number)?;
    Ok(front(room, answer.count))
}
