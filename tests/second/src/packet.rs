//! Packet drives: how one is known, and its page 00h (RULES 7).

use crate::fault;

/// The signature tells it, and nothing else does.
pub fn is_packet_drive(signature: &[u8]) -> bool {
    signature[5] == 0x14 && signature[6] == 0xEB
}

/// The drive's own page with 89h in its list; None where that page is
/// unusable.
pub fn page00(reply: &[u8]) -> Option<Vec<u8>> {
    let codes = with_89(drive_codes(reply)?)?;
    // Another byte 1 than 00h is unusable.
    let mut page = vec![reply[0], 0x00, reply[2], codes.len() as u8];
    page.extend(codes);
    Some(page)
}

/// The codes that the drive lists, without what stands behind the list; None
/// where the page cannot be what it says it is.
fn drive_codes(reply: &[u8]) -> Option<&[u8]> {
    if reply.len() < 4 {
        return None;
    }
    if reply[1] != 0x00 {
        return None;
    }
    let following = &reply[4..];
    let listed = usize::from(reply[3]);
    if listed > following.len() {
        return None;
    }
    let codes = &following[..listed];
    if codes.windows(2).any(|pair| pair[0] >= pair[1]) {
        return None;
    }
    Some(codes)
}

/// The list with 89h in its place; None where its length would not fit byte 3.
fn with_89(codes: &[u8]) -> Option<Vec<u8>> {
    if codes.contains(&0x89) && !fault::planted("89h-twice") {
        return Some(codes.to_vec());
    }
    if codes.len() == 255 {
        return None;
    }
    let mut all = codes.to_vec();
    all.push(0x89);
    if fault::planted("89h-at-the-end") {
        return Some(all);
    }
    all.sort();
    Some(all)
}
