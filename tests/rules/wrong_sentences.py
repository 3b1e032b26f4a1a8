"""Wrong sentences that sentences.py has to find: by which check, in which file, the sentence that stands there, what it says instead, and a
part of what the check then tells. The file itself is left alone."""
import collections

Wrong = collections.namedtuple("Wrong", "check file sentence instead told")

POINTS = "every point of DECISIONS that is cited is there"
SECTIONS = "every section of RULES that is cited is there"
REQUESTS = "a point of a request is cited in a section that is from it"
LANDINGS = "a landing cites points that are of it"
FILES = "every file that a document names is there"
FUNCTIONS = "every function that a document names is there"
PROMISES = "every promise that STATEMENTS names is there"
REFUSALS = "a refusal has one sentence, status and key in RULES, header and crate"
ORDERS = "RULES, header and crate give the order of checks of the rules"
WORDS = "RULES tells the words that are read, and their bytes"
CONTRACTS = "STATEMENTS lists the contracts that leave something open"
PROOFS = "DECISIONS tells how long the proofs over the lent record are"
BLOCKS = "the rows of data/identify are those of its blocks"

RULES, DECISIONS, STATEMENTS = "docs/RULES.md", "docs/DECISIONS.md", "docs/STATEMENTS.md"
HEADER, CRATE, README = "include/piongseut.h", "bindings/rust/src/numbers.rs", "data/identify/README.md"

WRONG = [Wrong(*row) for row in (
    (POINTS, RULES, "*(reading 29)*", "*(reading 290)*", "cites point 290"),
    (POINTS, RULES, "*(readings 62 and 80)*", "*(readings 62 and 180)*", "cites point 180"),
    (POINTS, DECISIONS, "No rule asks it (point 50).", "No rule asks it (point 500).", "cites point 500"),
    (POINTS, DECISIONS, "No rule asks it (point 50).", "No rule asks it (49).", "has (49) alone"),
    (POINTS, STATEMENTS, "two calls (decision 39)", "two calls (decision 0)", "cites point 0"),
    (POINTS, "docs/landings/L10.md", "a page's first descriptor (76)", "a page's first descriptor (76, 176)", "cites point 176"),
    (REQUESTS, RULES, "*(readings 62 and 80)*", "*(readings 62 and 93)*", "section 9 cites point 93, and is not from L13"),
    (REQUESTS, RULES, "Pass-through orders; 02, L7, L9 and L12.", "Pass-through orders; 02, L9 and L12.", "and is not from L7"),
    (LANDINGS, "docs/landings/L10.md", "what the reader gives (74)", "what the reader gives (84)", "cites point 84"),
    (SECTIONS, "crates/roll/specs/Roll.antt", "(RULES 11)", "(RULES 17)", "cites section 17"),
    (SECTIONS, "man/health.1", "of the repository, sections 8 to 10.", "of the repository, sections 8 to 18.",
     "man/health.1 cites section 18"),
    (SECTIONS, "docs/CLIENTS.md", "(RULES 9 and 10)", "(RULES 9 and 20)", "cites section 20"),
    (SECTIONS, CRATE, "(RULES 3)", "(RULES 30)", "cites section 30"),
    (SECTIONS, RULES, "| `length` (32) | section 8.2;", "| `length` (32) | section 8.9;", "cites section 8.9"),
    (SECTIONS, RULES, "standard data, but for its four spaces (L2); 00h; 80h | 6.1; 6.2; 6.3 |",
     "standard data, but for its four spaces (L2); 00h; 80h | 6.1; 6.2; 6.9 |", "cites section 6.9"),
    (FILES, STATEMENTS, "`intake/specs/Intake` `taken`", "`intake/specs/Intakes` `taken`", "crates/intake/specs/Intakes.antt"),
    (FILES, "README.md", "`include/piongseut_named.h`", "`include/piongseut_names.h`", "include/piongseut_names.h"),
    (FUNCTIONS, DECISIONS, "(`page83::write`)", "(`page83::writes`)", "names page83::writes"),
    (PROMISES, STATEMENTS, "`RollOfStreams`", "`RollOfStream`", "RollOfStream"),
    (REFUSALS, HEADER, "PROTOCOL 0 or 1 while a reset is pending; another but 15 while anything is",
     "an order is pending, and PROTOCOL is not 15", "10, in the header"),
    (REFUSALS, HEADER, "/* 02h, 02 04 00  there is no block", "/* 02h, 05 24 00  there is no block", "6, in the header"),
    (REFUSALS, CRATE, "22: a capture tells of a packet drive.", "22: a capture of a packet drive.", "22, in the crate"),
    (REFUSALS, CRATE, "/// 19 (*): ", "/// 19: ", "19, in the crate"),
    (REFUSALS, RULES, "| 8 | more bytes are to be written than the room has |", "| 8 | more bytes are to be written than the page has |",
     "8, in the header"),
    (ORDERS, HEADER, "Refusals: 21, 22, 18 (the block of page 89h).", "Refusals: 18 (the block of page 89h), 21, 22.",
     "the header, check: [18, 21, 22]"),
    (ORDERS, HEADER, "11, 12, 6 (in the\n * later edition, where logical sectors are to be counted), 13, 14.", "11, 12, 13, 14.",
     "the header, submit"),
    (ORDERS, RULES, "feed 1, 17, 18;", "feed 1, 18, 17;", "section 3, feed: [1, 18, 17]"),
    (ORDERS, RULES, "| 19 | no packet drive; EVPD one", "| 9 | no packet drive; EVPD one", "section 4, inquiry"),
    (ORDERS, "crates/tally/specs/Census.antt", "(17 when closed c)\n    ∷ (18 when damaged block)",
     "(18 when damaged block)\n    ∷ (17 when closed c)", "the header, feed"),
    (ORDERS, "bindings/rust/src/page83.rs", "/// - [`Damaged`](Refusal::Damaged): the block is damaged.\n", "", "the crate, write"),
    (WORDS, RULES, "| major versions (14) | 80 | 160-161 |\n", "", "word 80 is read"),
    (WORDS, RULES, "| Ultra DMA modes (14) | 88 bits 6:0 | 176 bits 6:0 |", "| Ultra DMA modes (14) | 88 bits 6:0 | 177 bits 6:0 |",
     "is at 176"),
    (WORDS, "crates/identify/specs/Sector.antt", "word block 106", "word block 107", "word 107 is read"),
    (CONTRACTS, STATEMENTS, "| `input::stream::read` |", "| `input::stream::fill` |", "input::stream::read leaves something open"),
    (CONTRACTS, STATEMENTS, "`output::Text::fmt`, ", "", "output::Text::fmt leaves something open"),
    (CONTRACTS, "crates/input/src/failure.rt", "failure ≡ Unwritten };", "⊤ };", "input::Failure::from leaves something open"),
    (CONTRACTS, STATEMENTS, "- `Wrote` (`room/specs/Room`)", "- `Wrote`", "the relations are not told"),
    (CONTRACTS, "crates/packet/src/lib.rt", "{ result ≡ length (page00 reply.now) }", "{ result ≤ length (page00 reply.now) }",
     "packet::size leaves something open"),
    (CONTRACTS, "crates/refusals/src/lib.rt", "    ensures status { result ≡ (row_of number).status }\n", "",
     "refusals::refuse leaves something open"),
    (PROOFS, DECISIONS, " lines (`piongseut/proofs`)", "0 lines (`piongseut/proofs`)", "piongseut_complete is proved in "),
    (BLOCKS, README, "| TOSHIBA MK1651GSY | 38IGT0G5T | LD001D |", "| TOSHIBA MK1651GSY | LD001D | 38IGT0G5T |", "TOSHIBA"),
    (BLOCKS, README, "50000390e178422c | serial number |", "50000390e178422c | firmware |", "TOSHIBA"),
    (BLOCKS, README, "`ST320410A--3.39.bin`", "`ST320410A--3.40.bin`", "ST320410A--3.40.bin"),
)]
