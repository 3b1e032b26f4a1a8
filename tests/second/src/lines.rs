//! What the program `build` prints: an order a line comes in, and a command a
//! line goes out (RULES 16.5).

use crate::{build, refusal, Order};

/// What is printed, and what is complained of.
#[derive(Debug, Default, PartialEq, Eq)]
pub struct Said {
    pub out: String,
    pub err: String,
}

/// The most bytes before a line feed.
const MOST: usize = 4096;

/// All that the program says of its input. What stands behind the last line feed
/// is a line, too; where that is nothing, it is passed over.
pub fn lines(input: &[u8]) -> Said {
    let mut said = Said::default();
    for (at, line) in input.split(|&byte| byte == b'\n').enumerate() {
        match order_in(line) {
            Ok(None) => {}
            Ok(Some(order)) => said.out += &printed(order),
            Err(why) => said.err += &format!("build: line {}: {why}\n", at + 1),
        }
    }
    said
}

/// The bytes of the order's command, as `sg_raw` takes them.
fn printed(order: Order) -> String {
    let built = build(order);
    if built.number != refusal::ACCEPTED {
        return format!("refused {}\n", built.number);
    }
    let bytes = built.command[..built.size.into()].iter();
    let digits: Vec<String> = bytes.map(|byte| format!("{byte:02x}")).collect();
    digits.join(" ") + "\n"
}

/// The order that a line tells; None of a line that is to be passed over. What
/// is wrong is told of its first wrong word.
fn order_in(line: &[u8]) -> Result<Option<Order>, String> {
    if line.len() > MOST {
        return Err(format!("more than {MOST} bytes"));
    }
    let line = line.strip_suffix(b"\r").unwrap_or(line);
    let words = line.split(|byte| b" \t".contains(byte));
    let words: Vec<&[u8]> = words.filter(|word| !word.is_empty()).collect();
    if words.is_empty() || line[0] == b'#' {
        return Ok(None);
    }
    let (mut order, mut told) = (Order::default(), Vec::new());
    for word in words {
        give(&mut order, &mut told, word).map_err(|why| format!("{} {why}", shown(word)))?;
    }
    Ok(Some(order))
}

/// Gives the order what a word says of it. `told` are the fields that the words
/// before it gave.
fn give<'a>(
    order: &mut Order,
    told: &mut Vec<&'a [u8]>,
    word: &'a [u8],
) -> Result<(), &'static str> {
    let at = word.iter().position(|&byte| byte == b'=');
    let (name, value) = word.split_at(at.ok_or("has no =")?);
    put(order, name, &value[1..])?;
    if told.contains(&name) {
        return Err("gives its field a second time");
    }
    told.push(name);
    Ok(())
}

/// A word as a terminal may be shown it.
fn shown(word: &[u8]) -> String {
    let letters = word.iter().map(|&byte| match byte {
        b'\\' => "\\\\".to_string(),
        0x20..=0x7E => char::from(byte).to_string(),
        _ => format!("\\x{byte:02x}"),
    });
    letters.collect()
}

/// Gives the field of this name a value.
fn put(order: &mut Order, name: &[u8], value: &[u8]) -> Result<(), &'static str> {
    match name {
        b"length" => order.length = number(value, u32::MAX)?,
        b"auxiliary" => order.auxiliary = number(value, u32::MAX)?,
        b"features" => order.features = wide(value)?,
        b"count" => order.count = wide(value)?,
        b"lba_low" => order.lba_low = wide(value)?,
        b"lba_mid" => order.lba_mid = wide(value)?,
        b"lba_high" => order.lba_high = wide(value)?,
        b"quiet_seconds" => order.quiet_seconds = wide(value)?,
        b"sectors_per_block" => order.sectors_per_block = wide(value)?,
        b"device" => order.device = narrow(value)?,
        b"command" => order.command = narrow(value)?,
        b"protocol" => order.protocol = narrow(value)?,
        b"ck_cond" => order.ck_cond = narrow(value)?,
        b"extend" => order.extend = narrow(value)?,
        b"direction" => order.direction = direction(value)?,
        _ => return Err("names no field of an order"),
    }
    Ok(())
}

fn direction(value: &[u8]) -> Result<u8, &'static str> {
    match value {
        b"none" => Ok(0),
        b"from" => Ok(1),
        b"to" => Ok(2),
        _ => narrow(value),
    }
}

fn wide(value: &[u8]) -> Result<u16, &'static str> {
    number(value, u16::MAX.into()).map(|number| number as u16)
}

fn narrow(value: &[u8]) -> Result<u8, &'static str> {
    number(value, u8::MAX.into()).map(|number| number as u8)
}

/// A number of decimal digits, or of hexadecimal ones behind 0x.
fn number(value: &[u8], most: u32) -> Result<u32, &'static str> {
    let (digits, base) = match value.strip_prefix(b"0x") {
        Some(digits) => (digits, 16),
        None => (value, 10),
    };
    if digits.is_empty() {
        return Err("has no number");
    }
    let mut number = 0_u64;
    for &digit in digits {
        let digit = char::from(digit).to_digit(base).ok_or("has no number")?;
        number = (number * u64::from(base) + u64::from(digit)).min(u64::from(most) + 1);
    }
    if number > u64::from(most) {
        return Err("has a number too large for its field");
    }
    Ok(number as u32)
}
