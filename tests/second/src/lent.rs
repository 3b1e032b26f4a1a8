//! The sizes of what the caller lends (RULES 1). They are checked before all
//! else (RULES 3).

use crate::{fault, sense};

/// No bytes stand for a drive that gave no block.
pub fn block_size_is_right(block: &[u8]) -> bool {
    block.len() == 512 || block.is_empty()
}

pub fn signature_size_is_right(signature: &[u8]) -> bool {
    signature.len() == 20
}

/// Vendor, product and revision.
pub fn texts_size_is_right(texts: &[u8]) -> bool {
    texts.len() == 28
}

/// A SAS address.
pub fn address_size_is_right(address: &[u8]) -> bool {
    (address.len() == 7 && fault::planted("ports-address-of-7-taken"))
        || (address.len() == 9 && fault::planted("ports-address-of-9-taken"))
        || (address.is_empty() && fault::planted("ports-address-of-0-taken"))
        || address.len() == 8
}

/// It has to take the longest sense data there is, whatever form is stated;
/// and no number of a form is a wrong one.
pub fn sense_size_is_right(form: u8, sense: &[u8]) -> bool {
    if fault::planted("form-of-another-number-refused") && form > sense::DESCRIPTOR {
        return false;
    }
    if fault::planted("fixed-takes-room-of-18") && form == sense::FIXED {
        return sense.len() >= 18;
    }
    sense.len() >= 22
}

/// Lent to a completion, and with every command for protocol 15.
pub fn registers_size_is_right(registers: &[u8]) -> bool {
    registers.len() == 11
}
