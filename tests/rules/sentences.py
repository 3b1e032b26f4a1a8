#!/usr/bin/env python3
"""sentences.py PAGE: holds sentences of the documents against what they speak of; PAGE is read in the place of docs/RULES.md. What is
cited has to be there; a refusal has one sentence, in the rule book, the header and the Rust crate; the order of checks that these give is
that of the rules; the words of an IDENTIFY block, the contracts that leave something open and the rows of data/identify are as told. Then
each check is tried on wrong sentences (wrong_sentences.py), which it has to find. It runs in the repository's root."""
import functools
import pathlib
import re
import sys

sys.path.insert(0, str(pathlib.Path("tools").resolve()))
import identify
from wrong_sentences import WRONG

RULES, DECISIONS, STATEMENTS = "docs/RULES.md", "docs/DECISIONS.md", "docs/STATEMENTS.md"
HEADER, CRATE, BLOCKS = "include/piongseut.h", "bindings/rust/src/numbers.rs", "data/identify/README.md"
TEXTS = ["*.md", "docs/**/*.md", "include/*.h", "man/*", "crates/*/specs/*.antt", "crates/*/src/*.rt", "crates/*/proofs/**/*.antt",
         "bindings/**/*.rs", "bindings/**/*.md", "data/**/*.md", "examples/*.c", "tools/*", "bench/*", "tests/*/*", "tests/second/**/*.rs",
         "tests/bindings/**/*.rs"]
NOT_READ = (".bin", ".capture", "tests/rules/wrong_sentences.py")
PAPERS = ("00", "01", "02", "90")

# Numbers one behind the other, as they are cited: 5; 8.2; 3, 9 and 4; 34 to 39.
NUMBER = r"\d+(?:\.\d+)?"
NUMBERS = r"%s(?:(?:,|,? and| to) %s)*" % (NUMBER, NUMBER)


class Tree:
    """The repository's files as texts; of one file a sentence may be exchanged for a wrong one."""

    def __init__(self, page, wrong=None):
        self.page, self.wrong = page, wrong

    def text(self, path):
        text = text_of(self.page if path == RULES else path)
        return text.replace(self.wrong.sentence, self.wrong.instead) if self.wrong and path == self.wrong.file else text

    def files(self, *patterns):
        return files_of(patterns)

    def prose(self, path):
        """A text in one line, without what a comment's lines begin with; of code its comments alone."""
        text, comment = self.text(path), {".antt": "--", ".rt": "//"}.get(pathlib.Path(path).suffix)
        if comment:
            text = "\n".join(comment + line.partition(comment)[2] for line in text.split("\n") if comment in line)
        return re.sub(r"\s*\n[ \t]*(?://[/!]?|\*(?!\*)|--|#|\|)?[ \t]*", " ", text)


@functools.lru_cache(None)
def text_of(path):
    return pathlib.Path(path).read_text()


@functools.lru_cache(None)
def files_of(patterns):
    found = {str(path) for pattern in patterns for path in pathlib.Path().glob(pattern) if path.is_file()}
    return sorted(path for path in found if not path.endswith(NOT_READ))


def numbers_in(cited):
    """The numbers of a citation; `34 to 39` is all six."""
    parts = re.split(r"(?:,? and|,) ", cited)
    for part in parts:
        first, _, last = part.partition(" to ")
        yield from map(str, range(int(first), int(last) + 1)) if last and "." not in part else filter(None, (first, last))


def table_rows(text, heading):
    """The cells of each row of the table whose heading begins so."""
    lines = text[text.index("| %s" % heading):].split("\n")
    table = lines[2:next(at for at, line in enumerate(lines) if not line.startswith("|"))]
    return [[cell.strip() for cell in re.split(r"(?<!\\)\|", line)[1:-1]] for line in table]


# ---- What is cited is there


def points(tree):
    """The points of DECISIONS: for each number its text, and the request of its section, if it has one."""
    found = {}
    for section in re.split(r"^## ", tree.text(DECISIONS), flags=re.M)[1:]:
        request = re.match(r".*\(request (L\d+)\)", section)
        for number, text in re.findall(r"^(\d+)\. (.*?)(?=^\d+\. |\Z)", section, re.M | re.S):
            found[number] = text, request and request[1]
    return found


def points_cited_in(tree, path):
    """By name, as in `reading 5`; and what a landing decided, whose numbers stand in brackets."""
    text = tree.prose(path)
    decided = re.findall(r"\*\*Decided\.\*\*(.*)", tree.text(path), re.S) if "/landings/" in path else []
    cited = re.findall(r"\b(?:readings?|decisions?|points?) (%s)" % NUMBERS, text, re.I)
    cited += re.findall(r"DECISIONS(?:\.md)?`?,? (?:points? )?(%s)" % NUMBERS, text)
    cited += [number for part in decided for number in re.findall(r"\((%s)\)" % NUMBERS, part)]
    return [number for some in cited for number in numbers_in(some)]


def points_lacking(tree):
    """In DECISIONS itself no point is cited by its number alone, which could be that of anything."""
    there = points(tree)
    yield from ("%s cites point %s" % (path, number) for path in tree.files(*TEXTS) for number in points_cited_in(tree, path)
                if number not in there)
    alone = re.findall(r"(?<!\w)\((%s)\)" % NUMBERS, tree.prose(DECISIONS))
    yield from ("%s has (%s) alone" % (DECISIONS, number) for number in alone if number not in PAPERS)


def request_lacking(tree):
    """A point of a request is cited where the request is: in a section of the rule book that is from it, or in its landing's note."""
    there = points(tree)
    for section in re.split(r"^## (?=\d)", tree.text(RULES), flags=re.M)[1:]:
        sources = re.findall(r"L\d+", " ".join(re.findall(r"\*From.*?\n\n", section, re.S)))
        cited = re.findall(r"\(readings? (%s)\)" % NUMBERS, re.sub(r"\s+", " ", section))
        yield from ("section %s cites point %s, and is not from %s" % (section.split()[0], number, there[number][1])
                    for some in cited for number in numbers_in(some)
                    if number in there and there[number][1] not in sources + [None])


def landing_of_another(tree):
    there = points(tree)
    return ["%s cites point %s, which is not of it" % (path, number) for path in tree.files("docs/landings/*.md")
            for number in points_cited_in(tree, path) if number in there
            and not re.search(r"\b%s\b" % pathlib.Path(path).stem, "%s %s" % there[number])]


def sections_cited_in(tree, path):
    """Of other texts what stands behind the rule book's name; of the rule book itself what is called a section, and numbers like 8.2."""
    text = tree.prose(path)
    if path != RULES:
        return re.findall(r"RULES(?:\.md)?`?,? (?:of the repository, )?(?:sections? )?(%s)" % NUMBERS, text)
    here = [row[2] for row in table_rows(tree.text(path), "Paper and part | Point | Here")]
    here = [some for cell in here for some in re.split(r"; ", cell) if re.fullmatch(NUMBERS, some)]
    return here + re.findall(r"\bsections? (%s)" % NUMBERS, text) + re.findall(r"\((?:\d+, )?(\d+\.\d+)\)", text)


def sections_lacking(tree):
    there = re.findall(r"^##+ (%s) " % NUMBER, tree.text(RULES), re.M)
    return ["%s cites section %s" % (path, number) for path in tree.files(*TEXTS) for some in sections_cited_in(tree, path)
            for number in numbers_in(some) if number not in there]


def files_lacking(tree):
    """Files that the documents name in whole: from the root, or as CRATE/specs/FILE and CRATE/proofs/FILE. NAME stands for many."""
    for path in tree.files("*.md", "docs/*.md"):
        named = [name for name in re.findall(r"`([\w./-]+/[\w./-]*)`", tree.text(path)) if "NAME" not in name]
        whole = [name for name in named if re.match(r"(crates|docs|include|man|tests|tools|bindings|data|examples|bench)/", name)]
        inner = ["crates/%s.antt" % name for name in named if re.fullmatch(r"[a-z]\w*/(specs|proofs)/[A-Z]\w*", name)]
        yield from ("%s names %s" % (path, name) for name in whole + inner if not pathlib.Path(name).exists())


def functions_lacking(tree):
    """Functions, and what else a crate's source defines, that the documents name as CRATE::NAME; a type or module may stand between. Two
    pages tell of what was, and name what stood there then."""
    for path in tree.files("*.md", "docs/*.md"):
        if path in ("docs/PORT.md", "docs/DESIGN-PASS.md"):
            continue
        named = [name.split("::") for name in re.findall(r"`([a-z]\w*::[\w:]+)`", tree.text(path))]
        sources = {crate: "\n".join(map(tree.text, tree.files("crates/%s/src/*.rt" % crate))) for crate, *_ in named}
        yield from ("%s names %s" % (path, "::".join(name)) for name in named
                    if sources[name[0]] and not re.search(r"\b(?:fn|struct|enum|const|mod) %s\b" % name[-1], sources[name[0]]))


def promises_lacking(tree):
    """What STATEMENTS says answers a demand: each name in the second column is defined by some rule or promise."""
    defined = set(re.findall(r"^(?:abbrev pub|unfoldable pub|pub record|pub) ([A-Z]\w*)", "\n".join(
        tree.text(path) for path in tree.files("crates/*/specs/*.antt")), re.M))
    rows = table_rows(tree.text(STATEMENTS), "demand | promises")
    return [name for row in rows for name in re.findall(r"`([A-Z]\w*)`", row[1]) if name not in defined]


# ---- One sentence for each refusal


def book_refusals(tree):
    """The table of the rule book: sentence, status, and key, ASC and ASCQ; of the sentence without the sections that it cites."""
    rows = table_rows(tree.text(RULES), "No. | Given when, and only when")
    return {int(row[0]): (re.sub(r" \([\d., ]+\)$", "", row[1]), row[2].replace("FFh", "none"), row[3]) for row in rows}


def header_refusals(tree):
    defined = re.findall(r"^#define PIONGSEUT_(?:ACCEPTED|REFUSED_\w+) (\d+) +/\* (.{13})  (.*) \*/$", tree.text(HEADER), re.M)
    columns = ((int(number), sentence, *(column.strip() + ", ").split(", ")[:2]) for number, column, sentence in defined)
    return {number: (sentence, status, codes) for number, sentence, status, codes in columns}


def crate_refusals(tree):
    """Of the Rust crate: a star marks a key, and BUSY that status."""
    text = re.search(r"^    Refusal \{$.*?^    \}$", tree.text(CRATE), re.M | re.S)[0]
    told = re.findall(r"/// (\d+)( \(\*\)|, BUSY|): ((?:[^\n]|\n +/// )*)\.\n +\w+ = ", text)
    marks = {"": "none", " (*)": "02h", ", BUSY": "08h"}
    return {int(number): (re.sub(r"\n +/// ", " ", sentence), marks[mark]) for number, mark, sentence in told}


def refusals_that_differ(tree):
    book, header, crate = book_refusals(tree), header_refusals(tree), crate_refusals(tree)
    yield from ("%d, in the header: %s" % (number, header.get(number)) for number in book if header.get(number) != book[number])
    yield from ("%d, in the crate: %s" % (number, crate.get(number)) for number in book if number and crate.get(number) != book[number][:2])
    if sorted(book) != list(range(24)) or len(header) != 24 or len(crate) != 23:
        yield "%d rows, %d in the header, %d in the crate" % (len(book), len(header), len(crate))


# ---- The order of checks

# For each entry the file and the definition that lists its checks; of those that make one check, the definition that has its number.
LISTS = {"inquiry": ("inquiry_checks/specs/Checks", "checks"), "submit": ("passthrough_checks/specs/Checks", "checks_of"),
         "complete": ("passthrough/specs/Complete", "checks_of"), "write": ("page83/specs/Page83", "checks"),
         "roll": ("roll/specs/Roll", "checks"), "gather": ("gathering/specs/Gathering", "gather_checks"),
         "feed": ("tally/specs/Census", "checks"), "check": ("checker/specs/Check", "checks")}
SINGLE = {"read": ("page83_reader/specs/Reader", r"^refused =.*?number = (\d+);"),
          "take": ("intake/specs/Intake", r"\(answer held 0 (\d+) 0\)"), "block": ("intake/specs/Intake", r"\(offer (\d+) 0\) \(cond"),
          "build": ("builder/specs/Builder", r"\(built (\d+) 0 ")}
# What the header and the crate call them.
CALLED = {"write_page83": "write", "read_page83": "read", "intake_take": "take", "intake_block": "block", "intake_gather": "gather",
          "census_feed": "feed"}


def one_after_another(numbers):
    """A check that is made in two steps, one right behind the other, is one."""
    return [number for at, number in enumerate(numbers) if at == 0 or numbers[at - 1] != number]


def orders_of_rules(tree):
    orders = {}
    for entry, (file, name) in LISTS.items():
        body = re.search(r"^%s [^\n]*=\n(.*?)\n\n" % name, tree.text("crates/%s.antt" % file), re.M | re.S)[1]
        orders[entry] = one_after_another([int(number) for number in re.findall(r"\((\d+) when ", body)])
    single = ((entry, re.findall(told, tree.text("crates/%s.antt" % file), re.M | re.S)) for entry, (file, told) in SINGLE.items())
    return {**orders, **{entry: [int(number) for number in numbers] for entry, numbers in single}}


def listed(text):
    """The numbers of a list, without what is said of them in brackets."""
    return [int(number) for number in re.findall(r"\d+", re.sub(r"\([^()]*\)", "", text))]


def orders_of_book(tree):
    """The sentence of section 3; and the tables of checks of INQUIRY and of check."""
    text = tree.prose(RULES)
    sentence = re.search(r"Each entry makes its own in this order: (.*?)\. ", text)[1]
    orders = {("section 3", part.split()[0].lower()): listed(part.partition(" ")[2]) for part in sentence.split("; ")}
    inquiry = table_rows(tree.text(RULES), "No. | Check |")
    check = table_rows(tree.text(RULES), "No. | Given when | place")
    orders["section 4", "inquiry"] = [number for row in inquiry for number in listed(row[0])]
    orders["section 15.2", "check"] = [int(row[0]) for row in check if row[0].isdigit()]
    return orders


def orders_of_header(tree):
    """Behind `Refusals:` in the comment before a function, up to the end of the sentence."""
    orders = {}
    for comment, name in re.findall(r"^/\*((?:(?!\*/).)*?)\*/\npiongseut_\w+ piongseut_(\w+)\(", tree.text(HEADER), re.M | re.S):
        told = re.search(r"Refusals: ((?:\([^()]*\)|[^().])*)\.", comment)
        if not name.endswith("empty"):
            orders[CALLED.get(name, name)] = listed(told[1]) if told else None
    return orders


def orders_of_crate(tree):
    """Behind `# Refusals` in what is said of a function: the names in their order, where 2 stands once for both of its checks."""
    named = {name: int(re.search(r"^#define PIONGSEUT_%s (\d+)" % macro, tree.text(HEADER), re.M)[1])
             for name, macro in re.findall(r"^        (\w+) = ffi::(REFUSED_\w+),", tree.text(CRATE), re.M)}
    orders = {}
    for path in tree.files("bindings/rust/src/*.rs"):
        for told, name in re.findall(r"/// # Refusals\n(.*?)(?:/// # Examples.*?)pub fn (\w+)", tree.text(path), re.S):
            orders[CALLED.get(name, name)] = [named[refusal] for refusal in re.findall(r"Refusal::(\w+)\)", told)]
    return orders


def orders_that_differ(tree):
    rules = orders_of_rules(tree)
    once = {entry: list(dict.fromkeys(numbers)) for entry, numbers in rules.items()}
    header, book, crate = orders_of_header(tree), orders_of_book(tree), orders_of_crate(tree)
    yield from ("the header, %s: %s" % (entry, header.get(entry)) for entry in rules if header.get(entry) != rules[entry])
    yield from ("%s, %s: %s" % (*place, numbers) for place, numbers in book.items() if numbers != rules.get(place[1]))
    yield from ("section 3 has no " + entry for entry in rules if ("section 3", entry) not in book)
    # The crate's `check` tells its refusals at the variant that has them.
    yield from ("the crate, %s: %s" % (entry, crate.get(entry)) for entry in rules if entry != "check" and crate.get(entry) != once[entry])


# ---- The words of an IDENTIFY block


def bytes_of(words):
    """Where words stand in the block, as section 5 writes it: `87 bits 15:14 and 8` is `175 bits 7:6 and 0`."""
    whole = re.fullmatch(r"(\d+)(?:-(\d+))?", words)
    if whole:
        return "%d-%d" % (2 * int(whole[1]), 2 * int(whole[2] or whole[1]) + 1)
    word, kind, bits = re.fullmatch(r"(\d+) (bits?) (.*)", words).groups()
    upper = all(int(bit) >= 8 for bit in re.findall(r"\d+", bits))
    within = re.sub(r"\d+", lambda bit: str(int(bit[0]) - 8 * upper), bits)
    return "%d" % (2 * int(word) + upper) + ("" if within == "7:0" else " %s %s" % (kind, within))


def words_of_rules(tree):
    """The words that definitions read, by number or from one to another; and word 255, of which they read a byte."""
    text = "\n".join(re.sub(r"--.*", "", tree.text(path)) for path in tree.files("crates/*/specs/*.antt"))
    single = {int(word) for word in re.findall(r"\bword \w+ (\d+)", text)}
    by_byte = {int(byte) // 2 for byte in re.findall(r"\b(?:get_or|slice_index) block (\d+)\b", text)}
    runs = re.findall(r"\b(?:words|SameWords|SomeWord|NoWord) (\d+) (\d+) ", text)
    return single | by_byte | {word for first, last in runs for word in range(int(first), int(last) + 1)}


def words_told_wrong(tree):
    rows = table_rows(tree.text(RULES), "Field | Words | Bytes")
    yield from ("%s: %s is at %s" % (*row[:2], bytes_of(row[1])) for row in rows if bytes_of(row[1]) != row[2])
    runs = [re.match(r"(\d+)(?:-(\d+))?", row[1]).groups() for row in rows]
    told = {word for first, last in runs for word in range(int(first), int(last or first) + 1)}
    read = words_of_rules(tree)
    yield from ("word %d is read" % word for word in sorted(read - told))
    yield from ("word %d is not read" % word for word in sorted(told - read))


# ---- What a contract leaves open


def functions(tree, path):
    """The public functions of a source file: name, signature, and what each `ensures` says. The body begins with a { at the end of the
    signature's line, or with one that stands alone in a line behind the clauses."""
    text = tree.text(path)
    module = "" if path.endswith("/lib.rt") else pathlib.Path(path).stem + "::"
    for start in re.finditer(r"^( *)pub (?:extern \"C\" )?fn (\w+)", text, re.M):
        body = re.compile(r"\n%s\{$|^(?! *(?:requires|ensures)\b).* \{$" % start[1], re.M).search(text, start.start())
        head = text[start.start():body.start() if body[0].startswith("\n") else body.end()]
        name = "%s::%s%s" % (path.split("/")[1], module, start[2])
        signature, *clauses = re.split(r"\n *(?=(?:requires|ensures)\b)", head)
        said = (re.fullmatch(r"ensures (?:\w+ )?\{\s*(.*?)\s*\}", clause, re.S) for clause in clauses)
        yield name, signature, [found[1] for found in said if found]


def methods(tree, path):
    """The methods of the public traits of a source file, and those of traits that its public types have, as `functions` gives functions. A
    law of the trait that the type fills in, as `from_gives`, is a clause too."""
    text = tree.text(path)
    crate = path.split("/")[1]
    for block in re.finditer(r"^(?:pub trait (\w+)|impl(?:<.*?>)? [^\n{]*? for (\w+))[^{]*\{$(.*?)^\}$", text, re.M | re.S):
        owner = block[1] or block[2]
        if not block[1] and not re.search(r"^pub (?:struct|enum) %s\b" % owner, text, re.M):
            continue
        for start in re.finditer(r"^    fn (\w+)", block[3], re.M):
            head = re.compile(r".*?(?:;|\{)$", re.M | re.S).match(block[3], start.start())[0]
            signature, *clauses = re.split(r"\n *(?=(?:requires|ensures)\b)", head)
            said = (re.fullmatch(r"ensures (?:\w+ )?\{\s*(.*?)\s*\}[;{\s]*", clause, re.S) for clause in clauses)
            law = re.findall(r"ghost %s_gives = \{ λ \w+ (\w+)\. \1( ≡ .*) \};" % start[1], block[3])
            yield ("%s::%s::%s" % (crate, owner, start[1]), signature,
                   [found[1] for found in said if found] + ["result" + equation for _, equation in law])


def parts_of(clause):
    """What a clause says one beside the other: `a × (b)`."""
    parts, depth = [""], 0
    for word in re.findall(r"[()]| × |[^()×]+", clause):
        depth += (word == "(") - (word == ")")
        if word == " × " and not depth:
            parts.append("")
        else:
            parts[-1] += word
    if len(parts) == 1:
        return parts
    return [inner for part in parts for inner in parts_of(re.sub(r"\A\((.*)\)\Z", r"\1", part.strip(), flags=re.S))]


def settled_by(part, relations):
    """Of the result and lent pieces those that a part of a clause settles."""
    left, equation, _ = part.partition(" ≡ ")
    head = re.split(r"[ ·]", left if equation else part)
    lent = re.findall(r"\b(\w+)\.new\b", left)
    if equation and (left in ("result", "result.now", "result.0", "result.bytes") or head[0] in relations):
        return {"result"}
    if equation and re.fullmatch(r"\w+\.new(?:\.now)?", left):
        return set(lent)
    if equation and re.match(r"(\w+·)?\w*[oO]utcome ", left) or not equation and head[0] in relations:
        return set(lent) | ({"result"} if re.search(r"\bresult\b(?!\.)", left) else set())
    return set()


def open_functions(tree, relations):
    for path in tree.files("crates/*/src/*.rt"):
        of_traits = [] if path.endswith("/main.rt") else methods(tree, path)
        for name, head, clauses in [*functions(tree, path), *of_traits]:
            owed = set(re.findall(r"(\w+): &(?:'\w+ )?mut ", head)) | ({"result"} if ") -> " in head else set())
            settled = [settled_by(part, relations) for clause in clauses for part in parts_of(clause)]
            if owed - set().union(*settled):
                yield name


def contracts_told_wrong(tree):
    section = re.search(r"^## What a contract leaves open$(.*?)^## ", tree.text(STATEMENTS), re.M | re.S)[1]
    relations = re.findall(r"`(\w+)` \(`\w+/specs/\w+`\)", "".join(re.findall(r"^- (?:.|\n )*", section, re.M)))
    told = {name for row in table_rows(section, "function | left open") for name in re.findall(r"`([\w:]+)`", row[0])}
    found = set(open_functions(tree, relations))
    yield from ("%s leaves something open" % name for name in sorted(found - told))
    yield from ("%s leaves nothing open" % name for name in sorted(told - found))
    if not {"Wrote", "Answered"} <= set(relations):
        yield "the relations are not told: %s" % relations


def proofs_told_wrong(tree):
    """How long the proofs of the functions over a lent record are, of which DECISIONS says what a third would cost."""
    told = re.search(r"(\d+) and (\d+) lines \(`piongseut/proofs`\)", tree.prose(DECISIONS))
    for name, said in zip(("piongseut_submit", "piongseut_complete"), told.groups()):
        lines = sum(tree.text(path).count("\n") for path in tree.files("crates/piongseut/proofs/%s/*.antt" % name))
        if lines != int(said):
            yield "%s is proved in %d lines" % (name, lines)


# ---- The real blocks


def block_row(path):
    """What a block and its file's name tell, as a row of data/identify/README.md has it."""
    block = path.read_bytes()
    texts = [text.decode("ascii").strip() for text in (identify.model(block), identify.serial(block), identify.firmware(block))]
    name = identify.name(block).hex() if identify.carries_name(block) else "none"
    first, behind = path.name[:-len(".bin")].split("--")[:2]
    called = {texts[2]: "firmware", texts[1]: "serial number"}.get(behind) if first == texts[0].replace(" ", "_") else None
    return ["`%s`" % path.name, *texts, name, called]


def blocks_told_wrong(tree):
    told = table_rows(tree.text(BLOCKS), "file | model")
    rows = [block_row(path) for path in sorted(pathlib.Path(BLOCKS).parent.glob("*.bin"))]
    yield from ("it is %s" % ", ".join(map(str, row)) for row in rows if row not in told)
    yield from ("no block is %s" % ", ".join(row) for row in told if row not in rows)
    yield from ("%s stands there twice" % row[0] for row in rows if told.count(row) > 1)


CHECKS = {
    "every point of DECISIONS that is cited is there": points_lacking,
    "a point of a request is cited in a section that is from it": request_lacking,
    "a landing cites points that are of it": landing_of_another,
    "every section of RULES that is cited is there": sections_lacking,
    "every file that a document names is there": files_lacking,
    "every function that a document names is there": functions_lacking,
    "every promise that STATEMENTS names is there": promises_lacking,
    "a refusal has one sentence, status and key in RULES, header and crate": refusals_that_differ,
    "RULES, header and crate give the order of checks of the rules": orders_that_differ,
    "RULES tells the words that are read, and their bytes": words_told_wrong,
    "STATEMENTS lists the contracts that leave something open": contracts_told_wrong,
    "DECISIONS tells how long the proofs over the lent record are": proofs_told_wrong,
    "the rows of data/identify are those of its blocks": blocks_told_wrong,
}


def told_of(check, page, wrong=None):
    """What a check finds; where it cannot read a text it finds that."""
    try:
        return [str(found) for found in CHECKS[check](Tree(page, wrong))]
    except (AttributeError, IndexError, KeyError, StopIteration, TypeError, ValueError) as problem:
        return ["cannot be read: %s: %s" % (type(problem).__name__, problem)]


def missed(wrong, page):
    """Why a wrong sentence shows nothing, or nothing if its check tells it."""
    if wrong.sentence not in Tree(page).text(wrong.file):
        return "%s has not: %s" % (wrong.file, wrong.sentence)
    found = set(told_of(wrong.check, page, wrong)) - set(told_of(wrong.check, page))
    return None if any(wrong.told in one for one in found) else "%s: told is %s" % (wrong.instead, ", ".join(found) or "nothing")


def main():
    page = sys.argv[1]
    results = [(check, told_of(check, page)) for check in CHECKS]
    results += [("a wrong sentence of %s is found" % wrong.file, list(filter(None, [missed(wrong, page)]))) for wrong in WRONG]
    results.append(("every check is tried", sorted(set(CHECKS) - {wrong.check for wrong in WRONG})))
    for what, found in results:
        if found:
            print("not ok: %s; not so: %s" % (what, "; ".join(found)))
    failed = sum(bool(found) for _, found in results)
    print("%d passed, %d failed" % (len(results) - failed, failed))
    return 1 if failed else 0


sys.exit(main())
