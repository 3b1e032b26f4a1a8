//! Calls and answers as text for whoever looks into a difference.

use crate::call::{self, Bytes, Call, NAMES, PIECES};

pub fn hex(bytes: &[u8]) -> String {
    bytes.iter().map(|byte| format!("{byte:02X}")).collect()
}

/// The bytes of a text of hexadecimal digits.
pub fn from_hex(text: &str) -> Option<Vec<u8>> {
    let digits: Option<Vec<u8>> = text
        .chars()
        .map(|digit| Some(digit.to_digit(16)? as u8))
        .collect();
    let digits = digits?;
    let pairs = digits.chunks_exact(2);
    pairs
        .remainder()
        .is_empty()
        .then(|| pairs.map(|pair| pair[0] << 4 | pair[1]).collect())
}

/// The whole call, both answers, and how to see them again.
pub fn both(head: &str, request: &[u8], second: &[u8], board: Option<&[u8]>) -> String {
    let mut text = format!("{head}\n");
    let call = match Call::decode(request) {
        Some(call) => call,
        None => return text + "  a call that cannot be decoded\n",
    };
    text += &describe(&call);
    text += &format!("  second program: {}\n", outcome(&call, second));
    match board {
        Some(answer) => text += &format!("  board:          {}\n", outcome(&call, answer)),
        None => text += "  board:          ended without an answer\n",
    }
    text + &format!("  again: tests/second/run replay {}\n", hex(request))
}

fn describe(call: &Call) -> String {
    let at = usize::from(call.function);
    let mut text = format!("  piongseut_{}\n", NAMES[at]);
    text += &format!("    declared {}, {:X?}\n", call.declared, call.record);
    let (form, edition) = (call.form.unwrap_or(0), call.edition.unwrap_or(0));
    text += &format!("    form {form}, edition {edition}\n");
    text += &format!("    {:?}, {:?}\n", call.intake, call.ports);
    for (name, piece) in PIECES[at].iter().zip(&call.pieces) {
        text += &format!("    {} ({} bytes) {}\n", name, piece.len(), hex(piece));
    }
    text
}

/// An answer as text; "unreadable" where it has another form than the call's.
pub fn outcome(call: &Call, answer: &[u8]) -> String {
    readable(call, answer).unwrap_or_else(|| format!("unreadable {}", hex(answer)))
}

fn readable(call: &Call, answer: &[u8]) -> Option<String> {
    let mut from = Bytes(answer);
    from.take(5)?;
    let guard = from.number(1)?;
    let mut text = came_back(call.function, &mut from)?;
    if guard != 0 {
        text += &format!(", GUARD CHANGED at {guard}");
    }
    text += &format!("\n    {:X?}", from.record()?);
    for (name, lent) in PIECES[usize::from(call.function)].iter().zip(&call.pieces) {
        let after = from.take(lent.len())?;
        let word = if after == lent { "as lent" } else { "changed" };
        text += &format!("\n    {name} {word} {}", hex(after));
    }
    Some(text)
}

/// The fields of what came back.
fn came_back(function: u8, from: &mut Bytes) -> Option<String> {
    Some(match function {
        call::EMPTY => format!("{:X?}", from.record()?),
        call::INQUIRY => inquiry(from)?,
        call::SUBMIT => submitted(from)?,
        call::COMPLETE => {
            let (number, status) = (from.number(1)?, from.number(1)?);
            let (lost, protocol) = (from.number(1)?, from.number(1)?);
            format!("number {number} status {status:02X} lost {lost} lost protocol {protocol}")
        }
        call::WRITE => counted(from)?,
        call::READ => {
            let (number, form) = (from.number(1)?, from.number(1)?);
            let (name, ports) = (hex(from.take(60)?), from.ports()?);
            let address = hex(from.take(8)?);
            format!("number {number} form {form} name {name} {ports:?} address {address}")
        }
        call::INTAKE_EMPTY => format!("{:?}", from.intake()?),
        call::INTAKE_TAKE => {
            let (next, used) = (from.intake()?, from.number(2)?);
            let (number, complete) = (from.number(1)?, from.number(1)?);
            format!("number {number} used {used} complete {complete} {next:?}")
        }
        call::INTAKE_INQUIRY => format!("block: {}; {}", counted(from)?, inquiry(from)?),
        call::INTAKE_ROLL => format!("gathered: {}; {}", counted(from)?, roll(from)?),
        call::CENSUS_EMPTY => format!("{:?}", call::census_in(from.take(52)?)),
        call::CENSUS_FEED => {
            let next = call::census_in(from.take(52)?);
            format!("number {} {next:?}", from.number(1)?)
        }
        call::BUILD => {
            let (number, size) = (from.number(1)?, from.number(1)?);
            let command = hex(from.take(16)?);
            let submitted = submitted(from)?;
            format!("number {number} size {size} command {command}; submitted: {submitted}")
        }
        call::CHECK => {
            let (number, accepted) = (from.number(1)?, from.number(1)?);
            let (tag, place) = (from.number(1)?, from.number(8)?);
            format!("number {number} accepted {accepted} tag {tag:02X} place {place}")
        }
        _ => roll(from)?,
    })
}

fn submitted(from: &mut Bytes) -> Option<String> {
    let (number, status) = (from.number(1)?, from.number(1)?);
    Some(format!(
        "number {number} status {status:02X} {:X?}",
        from.order()?
    ))
}

fn counted(from: &mut Bytes) -> Option<String> {
    Some(format!(
        "number {} count {}",
        from.number(1)?,
        from.number(8)?
    ))
}

fn inquiry(from: &mut Bytes) -> Option<String> {
    let (number, status) = (from.number(1)?, from.number(1)?);
    let (shown, count) = (from.number(1)?, from.number(8)?);
    Some(format!(
        "number {number} status {status:02X} shown {shown} count {count}"
    ))
}

fn roll(from: &mut Bytes) -> Option<String> {
    let (number, blocks) = (from.number(1)?, from.number(2)?);
    Some(format!(
        "number {number} blocks {blocks} drives {}",
        from.number(2)?
    ))
}
