//! The census (RULES 14).

use crate::{ffi, Census, Refusal};

/// A census of no blocks.
impl Default for Census {
    fn default() -> Census {
        Census::empty()
    }
}

impl Census {
    /// A census of no blocks.
    pub fn empty() -> Census {
        // SAFETY: nothing is lent.
        unsafe { ffi::piongseut_census_empty() }
    }

    /// Counts an IDENTIFY block, 512 bytes.
    ///
    /// # Refusals
    ///
    /// In the order in which they are asked; the census stays as it was.
    ///
    /// - [`Size`](Refusal::Size): the block has not 512 bytes, also none.
    /// - [`Census`](Refusal::Census): the census has 65,535 blocks already, or a
    ///   grouping of it does not sum to its blocks.
    /// - [`Damaged`](Refusal::Damaged): the block is damaged.
    ///
    /// # Examples
    ///
    /// ```
    /// use piongseut::{Census, Refusal, CENSUS_BLOCKS};
    ///
    /// let mut census = Census::empty();
    /// census.feed(&[0; 512])?;
    /// assert_eq!(census.blocks, 1);
    /// let wrong = Census { blocks: 2, ..census };
    /// assert_eq!(wrong.clone().feed(&[0; 512]), Err(Refusal::Census));
    /// let mut damaged = [0; 512];
    /// damaged[510] = 0xA5;
    /// assert_eq!(census.feed(&damaged), Err(Refusal::Damaged));
    /// # Ok::<(), Refusal>(())
    /// ```
    pub fn feed(&mut self, block: &[u8]) -> Result<(), Refusal> {
        // SAFETY: the pointer is the slice's, with its size.
        let answer = unsafe { ffi::piongseut_census_feed(*self, block.as_ptr(), block.len()) };
        Refusal::given(answer.number)?;
        *self = answer.next;
        Ok(())
    }
}
