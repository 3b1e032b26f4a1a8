//! Compares the proved board with the second program, byte for byte.
//!
//! `compare all [seed=N] [calls=N] data=DIR -- BOARD...` tries every class of
//! inputs; `compare first [begin=WORD] data=DIR -- BOARD...` ends at the first
//! difference and leaves out the random inputs; the classes whose names begin
//! with WORD come first. With `only=WORD`, either tries no others. `compare
//! replay HEX -- BOARD...` shows both answers to one call, and reads the digits
//! from standard input where HEX is `-`; `compare faults` names the faults that
//! can be planted. Exit status 1 is a difference, 2 a test that could not be
//! made.

#![forbid(unsafe_code)]

mod applies;
mod board;
mod builds;
mod call;
mod captures;
mod censuses;
mod editions;
mod inquiries;
mod intakes;
mod lent;
mod numbers;
mod orders;
mod pages;
mod ports;
mod random;
mod resets;
mod rolls;
mod senses;
mod show;
mod soundings;

use board::{Board, Talk, NUMBERS};
use call::{Call, Stated, COMPLETE, INQUIRY, INTAKE_INQUIRY, NAMES, SUBMIT};
use second::fields::LATER;
use std::error::Error;
use std::io;
use std::process::ExitCode;

const SEED: u64 = 33_553_920;
const CALLS: u64 = 3_300_000;

struct Asked {
    seed: u64,
    calls: u64,
    first: bool,
    begin: String,
    only: String,
    real: Vec<Vec<u8>>,
    board: Vec<String>,
}

fn main() -> ExitCode {
    let arguments: Vec<String> = std::env::args().skip(1).collect();
    let done = match arguments.first().map(String::as_str) {
        Some("all") => asked(&arguments[1..], false).and_then(run),
        Some("first") => asked(&arguments[1..], true).and_then(run),
        Some("replay") => replay(&arguments[1..]),
        Some("faults") => {
            second::fault::NAMES
                .iter()
                .for_each(|name| println!("{name}"));
            Ok(true)
        }
        _ => Err(trouble("usage: compare all|first|replay|faults")),
    };
    match done {
        Ok(true) => ExitCode::SUCCESS,
        Ok(false) => ExitCode::from(1),
        Err(why) => {
            eprintln!("compare: {why}");
            ExitCode::from(2)
        }
    }
}

/// Why a test could not be made.
fn trouble<E: Into<Box<dyn Error + Send + Sync>>>(why: E) -> io::Error {
    io::Error::new(io::ErrorKind::Other, why)
}

fn asked(arguments: &[String], first: bool) -> io::Result<Asked> {
    let mut asked = Asked {
        seed: SEED,
        calls: if first { 0 } else { CALLS },
        first,
        begin: String::new(),
        only: String::new(),
        real: Vec::new(),
        board: behind_dashes(arguments)?,
    };
    let number = |text: &str| text.parse::<u64>().map_err(trouble);
    for argument in arguments.iter().take_while(|argument| *argument != "--") {
        match argument.split_once('=') {
            Some(("seed", text)) => asked.seed = number(text)?,
            Some(("calls", text)) => asked.calls = number(text)?,
            Some(("begin", word)) => asked.begin = word.to_string(),
            Some(("only", word)) => asked.only = word.to_string(),
            Some(("data", folder)) => asked.real = real_blocks(folder)?,
            _ => return Err(trouble(format!("what is {argument}?"))),
        }
    }
    Ok(asked)
}

/// The command that starts the board.
fn behind_dashes(arguments: &[String]) -> io::Result<Vec<String>> {
    let after = arguments.iter().skip_while(|argument| *argument != "--");
    let board: Vec<String> = after.skip(1).cloned().collect();
    if board.is_empty() {
        return Err(trouble("no board behind --"));
    }
    Ok(board)
}

/// The files `*.bin` of the folder, in the order of their names.
fn real_blocks(folder: &str) -> io::Result<Vec<Vec<u8>>> {
    let mut paths = Vec::new();
    for entry in std::fs::read_dir(folder)? {
        paths.push(entry?.path());
    }
    paths.retain(|path| path.extension() == Some("bin".as_ref()));
    paths.sort();
    if paths.is_empty() {
        return Err(trouble(format!("no blocks in {folder}")));
    }
    paths.iter().map(std::fs::read).collect()
}

/// A class of inputs that takes nothing but the board.
type Inputs = fn(&mut Board);

const CLASSES: [(&str, Inputs); 75] = [
    ("soundings C1 to C13", soundings::numbered),
    ("the other soundings", soundings::others),
    ("published examples", soundings::published),
    (
        "orders: all fields, both opcodes, pending or not",
        orders::fields,
    ),
    (
        "orders: every byte 1, byte 2 and control",
        orders::first_bytes,
    ),
    ("orders: lengths and declared lengths", orders::lengths),
    ("orders: refusals alone and together", orders::refusals),
    ("orders: sizes of lent pieces", orders::sizes),
    ("orders: completion with every status", orders::completions),
    ("orders: records with odd contents", orders::odd_records),
    ("resets: a hung order is got past", resets::stories),
    ("resets: every protocol in every state", resets::states),
    ("resets: completion in every state", resets::completions),
    (
        "resets: the fields of a reset over an order",
        resets::fields,
    ),
    ("editions: every number of one", editions::numbers),
    ("editions: the fields of the 32-byte form", editions::fields),
    ("editions: every flag of the 32-byte form", editions::flags),
    ("editions: commands of every size", editions::sizes),
    (
        "editions: bytes 7 to 9 of the 32-byte form",
        editions::actions,
    ),
    ("editions: sizes of sectors", editions::sectors),
    (
        "editions: products around 32 bits and the declared length",
        editions::products,
    ),
    ("editions: refusals alone and together", editions::refusals),
    ("build: orders of commands", builds::commands),
    ("build: one field changed", builds::changed),
    (
        "build: every number of seconds and of sectors",
        builds::numbers,
    ),
    ("build: lengths and where they stand", builds::lengths),
    ("sense: refusals in every form", senses::refusals),
    ("sense: every number of a form, by rooms", senses::numbers),
    ("sense: each register, in every form", senses::registers),
    (
        "sense: an order in one form, its end in another",
        senses::orders,
    ),
    ("inquiry: refusals alone and together", inquiries::refusals),
    ("inquiry: sizes of lent pieces", inquiries::sizes),
    ("inquiry: pages, cuts and room", inquiries::cuts),
    ("inquiry: allocation lengths", inquiries::allocation_lengths),
    ("inquiry: all page codes and flags", inquiries::all_pages),
    ("inquiry: word 0", inquiries::first_word),
    ("inquiry: firmware texts", inquiries::revisions),
    ("inquiry: damaged blocks", inquiries::damaged),
    ("inquiry: signatures", inquiries::signatures),
    ("packet: replies that pass", inquiries::passed),
    ("packet: 89h at every place of page 00h", inquiries::lists),
    ("packet: unusable lists", inquiries::unusable_lists),
    ("page 83h: written and read back", pages_written),
    ("page 83h: word 87", pages::name_words),
    ("page 83h: damaged blocks", pages::damaged_blocks),
    ("page 83h: every byte damaged", pages::damaged),
    ("page 83h: cut, extended, mixed", pages::resized),
    ("ports: pages, cuts and room", ports::cuts),
    ("ports: choices and numbers", ports::numbers),
    ("ports: addresses", ports::addresses),
    ("ports: refusals alone and together", ports::refusals),
    ("ports: written and read back", ports::written),
    ("ports: every byte damaged", ports::damaged),
    ("ports: cut, extended, mixed", ports::resized),
    ("ports: right and wrong descriptors", ports::sequences),
    ("roll: sizes and rows", rolls::sizes),
    ("roll: word 87 of two blocks", rolls::name_words),
    ("roll: damaged blocks", rolls::damaged),
    ("roll: one byte differs", rolls::one_byte),
    ("intake: runs that end around byte 512", intakes::runs),
    ("intake: claims and stores", intakes::claims_and_stores),
    (
        "intake: inquiry, refusals alone and together",
        intakes::refusals,
    ),
    ("intake: inquiry, pages of every block", intakes::pages),
    ("intake: rolls, sizes and rows", intakes::roll_sizes),
    ("intake: rolls, damaged stores", intakes::roll_damaged),
    ("census: words 53, 80 and 88", censuses::words),
    ("census: refusals alone and together", censuses::refusals),
    ("check: refusals alone and together", captures::refusals),
    ("check: every byte damaged", captures::bytes),
    ("check: cut, and bytes behind", captures::cut),
    ("check: lengths right and wrong", captures::lengths),
    ("check: tags in every order", captures::tags),
    ("check: two fields that differ", captures::two_fields),
    ("check: page 83h of every choice, damaged", captures::ports),
    ("check: right and wrong descriptors", captures::descriptors),
];

fn pages_written(board: &mut Board) {
    pages::written(board);
    pages::changed_blocks(board);
    pages::read_back(board);
}

/// Tries everything, and prints what was covered. Back: no difference.
fn run(asked: Asked) -> io::Result<bool> {
    let mut board = Board::start(&asked.board, asked.first, &asked.only)?;
    println!("seed {}", asked.seed);
    let sooner = |class: &&(&str, Inputs)| class.0.starts_with(&asked.begin);
    let wanted = CLASSES
        .iter()
        .filter(|class| class.0.starts_with(&asked.only));
    let (sooner, later): (Vec<_>, Vec<_>) = wanted.partition(sooner);
    for (name, inputs) in sooner.into_iter().chain(later) {
        if board.is_done() {
            break;
        }
        board.class(name);
        inputs(&mut board);
    }
    let agreed = if board.is_done() {
        Agreed::default()
    } else {
        seeded(&mut board, &asked)
    };
    let found = board.finish()?;
    let mut report = Report::default();
    classes_tried(&board, &found, &asked.only, &mut report);
    if !asked.first && asked.only.is_empty() {
        own_answers(&agreed, &mut report);
        coverage(&board, &mut report);
    }
    if !asked.first {
        let calls: u64 = board.classes.iter().map(|class| class.calls).sum();
        println!("calls: {calls}, differences: {}", found.iter().sum::<u64>());
    }
    println!(
        "compare: {} passed, {} failed",
        report.passed, report.failed
    );
    if report.passed + report.failed == 0 {
        return Err(trouble(format!("no class begins with {}", asked.only)));
    }
    Ok(report.failed == 0)
}

/// That each class that was to be compared made calls, and none differs.
fn classes_tried(board: &Board, found: &[u64], only: &str, report: &mut Report) {
    for (class, differences) in board.classes.iter().zip(found) {
        if !class.name.starts_with(only) {
            continue;
        }
        let given: Vec<String> = (0..NUMBERS)
            .filter(|&number| class.numbers & 1 << number != 0)
            .map(|number| number.to_string())
            .collect();
        let (name, calls, given) = (class.name, class.calls, given.join(" "));
        let text = format!("{name}: {calls} calls, numbers {given}");
        // A class that made no call has shown nothing.
        report.check(*differences == 0 && calls > 0, &text);
    }
}

/// What the second program's own answers show.
#[derive(Default)]
struct Agreed {
    /// Rows, and names and ports of pages 83h.
    pages: bool,
    /// Divided streams and single runs.
    streams: bool,
    /// Two allocation lengths of one request.
    cuts: bool,
    /// Class counts and the blocks of each class.
    classes: bool,
    /// The two forms of sense data.
    forms: bool,
    /// The two editions, of commands in which they do not differ.
    editions: bool,
    /// Orders that were taken, and what was told of them.
    orders: bool,
    /// Orders of commands, and what they are built into.
    builds: bool,
    /// The board's own replies and what the check says of them.
    captures: bool,
}

/// The classes that take a seed or the real blocks.
fn seeded(board: &mut Board, asked: &Asked) -> Agreed {
    board.class("roll: planted twins");
    rolls::twins(board, asked.seed);
    board.class("roll: rows and pages 83h");
    let pages = rolls::pages_agree(board, asked.seed);
    board.class("intake: divided streams");
    let streams = intakes::divided(board, &asked.real, asked.seed);
    board.class("intake: rolls, planted twins");
    intakes::roll_twins(board, asked.seed);
    board.class("real drives");
    soundings::real_drives(board, &asked.real);
    board.class("inquiry: two allocation lengths of one request");
    let cuts = random::cut_again(board, asked.seed, &asked.real);
    board.class("sense: both forms of one call");
    let forms = senses::both(board, asked.seed, &asked.real);
    board.class("census: fleets of drives");
    let classes = censuses::fleets(board, &asked.real, asked.seed);
    board.class("editions: one command in both");
    let editions = editions::both(board, asked.seed, &asked.real);
    board.class("build: orders of random commands");
    let builds = builds::made_again(board, asked.seed, &asked.real);
    board.class("resets: records of random bytes");
    resets::any_records(board, asked.seed);
    board.class("check: the board's own replies");
    let captures = captures::own_replies(board, &asked.real);
    board.class("check: pages that others make");
    captures::foreign(board, &asked.real);
    board.class("sequences through one record");
    let orders = orders::sequences(board, asked.seed);
    if asked.calls > 0 {
        board.class("random and damaged inputs");
        random::calls(board, asked.seed, asked.calls, &asked.real);
    }
    Agreed {
        pages,
        streams,
        cuts,
        classes,
        forms,
        editions,
        orders,
        builds,
        captures,
    }
}

#[derive(Default)]
struct Report {
    passed: u32,
    failed: u32,
}

impl Report {
    fn check(&mut self, held: bool, text: &str) {
        println!("{} {text}", if held { "ok" } else { "not ok" });
        *(if held {
            &mut self.passed
        } else {
            &mut self.failed
        }) += 1;
    }
}

fn own_answers(agreed: &Agreed, report: &mut Report) {
    report.check(
        agreed.pages,
        "roll: the same row exactly if the names of pages 83h are equal, and the pages exactly if the ports are, too",
    );
    report.check(
        agreed.streams,
        "intake: a divided stream comes to what a single run gives",
    );
    report.check(
        agreed.cuts,
        "inquiry: the lesser allocation length shows the first part of the greater",
    );
    report.check(
        agreed.classes,
        "census: each class has as many blocks as were fed to it",
    );
    report.check(
        agreed.forms,
        "sense: a form changes the sense bytes alone, and both tell the same",
    );
    report.check(
        agreed.editions,
        "editions: a command of 12 or 16 bytes without T_TYPE is the same in both",
    );
    report.check(
        agreed.orders,
        "sequences: an order is ended or told lost once, or still pending",
    );
    report.check(
        agreed.builds,
        "build: an order of a command is built into one that makes it again",
    );
    report.check(
        agreed.captures,
        "check: the board's own replies are accepted exactly where 89h is among them",
    );
}

/// What was covered.
fn coverage(board: &Board, report: &mut Report) {
    report.check(
        cover(&board.counts),
        "every function gave every number it can",
    );
    report.check(
        board.not_first == 0,
        "the first refusal that applies answered",
    );
    for (at, numbers) in GIVEN.iter().enumerate() {
        let alone = |number: &usize| board.applied[at].contains(&(1 << number));
        let held = numbers[1..].iter().all(alone);
        if numbers.len() > 1 {
            report.check(held, &format!("{}: each refusal alone", NAMES[at]));
        }
    }
    forms_tried(board, report);
    editions_tried(board, report);
    pairs_tried(board, report);
}

/// That each function that takes a form gave each number in every kind of form.
fn forms_tried(board: &Board, report: &mut Report) {
    for function in [INQUIRY, SUBMIT, COMPLETE, INTAKE_INQUIRY].map(usize::from) {
        let every = |&number: &usize| board.formed[function][number] == 0b1111;
        let text = format!("{}: each number in every form", NAMES[function]);
        report.check(GIVEN[function].iter().all(every), &text);
    }
}

/// That submit gave each number in every kind of edition that can give it: 6, 18
/// and 20 are the later one's alone.
fn editions_tried(board: &Board, report: &mut Report) {
    let all = |&number: &usize| match number {
        6 | 18 | 20 => board.editions[number] == 1 << LATER,
        _ => board.editions[number] == 0b1111,
    };
    let held = GIVEN[usize::from(SUBMIT)].iter().all(all);
    report.check(held, "submit: each number in every edition that has it");
}

/// That the refusals that can apply together were tried so.
fn pairs_tried(board: &Board, report: &mut Report) {
    for (function, pairs) in applies::PAIRS {
        let sets = &board.applied[usize::from(function)];
        let tried = |a: usize, b: usize| sets.iter().any(|set| set >> a & set >> b & 1 == 1);
        let missing: Vec<_> = pairs.iter().filter(|(a, b)| !tried(*a, *b)).collect();
        let (all, name) = (pairs.len(), NAMES[usize::from(function)]);
        let text = format!(
            "{name}: pairs of refusals, {} of {all}",
            all - missing.len()
        );
        report.check(missing.is_empty(), &text);
        missing.iter().for_each(|pair| println!("  not {pair:?}"));
    }
}

/// The numbers that each function can give, as the header says.
const GIVEN: [&[usize]; 15] = [
    &[0],
    &[0, 1, 2, 3, 4, 5, 6, 7, 8, 18, 19],
    &[0, 1, 2, 3, 4, 6, 9, 10, 11, 12, 13, 14, 18, 20],
    &[0, 1, 15],
    &[0, 1, 8, 18, 19],
    &[0, 16],
    &[0, 1, 18],
    &[0],
    &[0, 1],
    &[0, 1, 2, 3, 4, 5, 6, 7, 8, 18, 19],
    &[0, 1, 8, 18],
    &[0],
    &[0, 1, 17, 18],
    &[0, 23],
    &[0, 18, 21, 22],
];

/// Prints how often each number was given. Back: every one that can be was.
fn cover(counts: &[[u64; NUMBERS]; NAMES.len()]) -> bool {
    let mut all = true;
    for (at, of_function) in counts.iter().enumerate() {
        let total: u64 = of_function.iter().sum();
        let mut line = format!("piongseut_{}: {total} calls; number", NAMES[at]);
        for &number in GIVEN[at] {
            line += &format!(" {number}: {},", of_function[number]);
            all &= of_function[number] > 0;
        }
        println!("{}", line.trim_end_matches(','));
    }
    all
}

/// Shows both answers to the call that the digits stand for.
fn replay(arguments: &[String]) -> io::Result<bool> {
    let mut digits = arguments.first().cloned().unwrap_or_default();
    if digits == "-" {
        io::stdin().read_line(&mut digits)?;
    }
    let request = show::from_hex(digits.trim_start_matches('-').trim()).unwrap_or_default();
    let call = Call::decode(&request).ok_or_else(|| trouble("no call in these digits"))?;
    let (mut sent, mut wanted) = (Vec::new(), Vec::new());
    let stated = Stated {
        form: call.form.unwrap_or(0),
        edition: call.edition.unwrap_or(0),
    };
    call.encode(stated, &mut sent);
    call.answer(stated, &mut wanted);
    let mut talk = Talk::start(&behind_dashes(arguments)?)?;
    let given = talk.ask(&sent, wanted.len()).ok();
    let equal = given.as_deref() == Some(&wanted[..]);
    let head = if equal { "equal" } else { "DIFFERENT" };
    print!("{}", show::both(head, &sent, &wanted, given.as_deref()));
    Ok(equal)
}
