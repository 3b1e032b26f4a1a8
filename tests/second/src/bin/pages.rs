//! `pages TEXTS SIGNATURE [PATH ..]`: the second program's reply to every
//! INQUIRY of the drives whose blocks stand on standard input, to hold against
//! what a host made of the board's. A line is: the block's place, what is asked,
//! number and status, and the bytes. TEXTS are the translator's, SIGNATURE is
//! that of all the drives in hexadecimal digits. The PATH of each drive, in the
//! blocks' order, is PORT:ADDRESS, as page 83h is to tell it: a number and
//! hexadecimal digits, or nothing in the place of each; drives without one are
//! told without.

use second::Ports;
use std::io::{self, Read, Write};

const ASKED: [(&str, u8, u8); 5] = [
    ("standard", 0, 0x00),
    ("00h", 1, 0x00),
    ("80h", 1, 0x80),
    ("83h", 1, 0x83),
    ("89h", 1, 0x89),
];

fn hex(bytes: &[u8]) -> String {
    bytes.iter().map(|byte| format!("{:02x}", byte)).collect()
}

fn from_hex(digits: &str) -> Option<Vec<u8>> {
    (0..digits.len())
        .step_by(2)
        .map(|at| u8::from_str_radix(digits.get(at..at + 2)?, 16).ok())
        .collect()
}

/// The ports by which a drive is reached, and the address.
type Path = (Ports, Vec<u8>);

fn path(word: &str) -> Option<Path> {
    let (port, address) = word.split_once(':')?;
    let chosen = u16::from(!port.is_empty()) + 2 * u16::from(!address.is_empty());
    let relative = match port {
        "" => 0,
        _ => port.parse().ok()?,
    };
    Some((Ports::new(chosen, relative), from_hex(address)?))
}

/// What is the same for all the drives.
struct Board<'a> {
    texts: &'a [u8],
    signature: Vec<u8>,
}

fn line(place: usize, asked: (&str, u8, u8), block: &[u8], path: &Path, board: &Board) -> String {
    let (what, evpd, code) = asked;
    let (mut room, mut sense) = ([0; 572], [0; 22]);
    let command = [0x12, evpd, code, 0xFF, 0xFF, 0x00];
    let answer = second::inquiry(
        &command,
        block,
        &board.signature,
        board.texts,
        &[],
        path.0,
        &path.1,
        second::sense::UNSTATED,
        &mut room,
        &mut sense,
    );
    let shown = hex(&room[..answer.count]);
    format!(
        "{} {} {} {:02x} {}\n",
        place, what, answer.number, answer.status, shown
    )
}

/// What the words behind the program's name say.
fn asked(words: &[String]) -> Option<(Board<'_>, Vec<Path>)> {
    let (texts, signature, paths) = match words {
        [texts, signature, paths @ ..] => (texts, signature, paths),
        _ => return None,
    };
    let board = Board {
        texts: texts.as_bytes(),
        signature: from_hex(signature)?,
    };
    let paths: Option<Vec<_>> = paths.iter().map(|word| path(word)).collect();
    Some((board, paths?))
}

fn main() -> io::Result<()> {
    let words: Vec<String> = std::env::args().skip(1).collect();
    let (board, mut paths) = asked(&words).unwrap_or_else(|| {
        eprintln!("usage: pages TEXTS SIGNATURE [PORT:ADDRESS ..] <BLOCKS");
        std::process::exit(2)
    });
    let mut input = Vec::new();
    io::stdin().lock().read_to_end(&mut input)?;
    let mut output = String::new();
    paths.resize(input.len() / 512 + 1, Default::default());
    for (place, block) in input.chunks(512).enumerate() {
        for asked in ASKED {
            output += &line(place, asked, block, &paths[place], &board);
        }
    }
    io::stdout().write_all(output.as_bytes())
}
