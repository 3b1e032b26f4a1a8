#!/usr/bin/env python3
"""examples.py PAGE COMMAND..: reads every example out of the rule book PAGE, tries it on the board by COMMAND (ask.c), and compares
every value that it names. Section 13 of the page says how examples are written. What is lent and not named must be left alone, and a
refusal must have the row that the page's own table gives it. Then the page is asked for an example of each number and entry, and held
against the definitions that it names. It runs in the repository's root."""
import collections
import pathlib
import re
import subprocess
import sys

FILL = 0xEE
ROW_FILL = 0xEEEE
START = {"block": "512 zero", "signature": "20 zero", "texts": "28 zero", "registers": "11 zero", "reply": "none", "ports": "none",
         "port": "0", "address": "none", "declared": "0", "edition": "first", "form": "2", "room": "600", "sense room": "24",
         "rows": "64", "run": "none"}
OTHER_NAMES = ("command", "page", "blocks", "input", "haves", "stores", "have", "census", "order", "capture")
PROGRAMS = ("rollcall", "census", "bridgecheck")
EDITIONS = {"first": 1, "later": 2}

Step = collections.namedtuple("Step", "entry lent wanted")
Case = collections.namedtuple("Case", "name line text steps")


class Unreadable(Exception):
    pass


# ---- Reading the page


def simple_bytes(text):
    """Bytes, letters, or a number of zeros or spaces."""
    many = re.fullmatch(r"(\d+) (zero|spaces)", text)
    if many:
        return (b"\0" if many[2] == "zero" else b" ") * int(many[1])
    if re.fullmatch(r'"[^"]*"', text):
        return text[1:-1].encode("ascii")
    if re.fullmatch(r"[0-9A-F]{2}( [0-9A-F]{2})*", text):
        return bytes.fromhex(text)
    raise Unreadable("no bytes: " + text)


def read_bytes(text):
    """The pieces one after the other; a piece AT: .. replaces bytes from place AT on."""
    done = b""
    for piece in [] if text == "none" else text.split("; "):
        placed = re.fullmatch(r"(\d+): (.*)", piece)
        if not placed:
            done += simple_bytes(piece)
            continue
        at, new = int(placed[1]), simple_bytes(placed[2])
        if at + len(new) > len(done):
            raise Unreadable("nothing to replace: " + piece)
        done = done[:at] + new + done[at + len(new):]
    return done


def read_number(text):
    return int(text[:-1], 16) if text.endswith("h") else int(text)


def read_ports(text):
    """Which target ports: by name, or a number of which the lowest two bits choose."""
    return PORTS.index(text) if text in PORTS else read_number(text)


PORTS = ("none", "relative", "sas", "both")


def read_order(text):
    """A whole order: fields that are not named are zero."""
    order = dict.fromkeys(ORDER_FIELDS, 0)
    for field in [] if text == "zeros" else text.split("; "):
        name, _, value = field.rpartition(" ")
        if name not in order:
            raise Unreadable("no field of an order: " + field)
        order[name] = read_number(value)
    return order


ORDER_FIELDS = ("length auxiliary features count lba_low lba_mid lba_high quiet_seconds sectors_per_block device command protocol"
                " ck_cond extend direction").split()


def read_census(text):
    """The counts of a census in the order of its fields: those that are not named are zero."""
    counts = dict.fromkeys(CENSUS_COUNTS, 0)
    for count in [] if text == "empty" else text.split("; "):
        name, _, value = count.rpartition(" ")
        if name not in counts:
            raise Unreadable("no count of a census: " + count)
        counts[name] = int(value)
    return list(counts.values())


CENSUS_COUNTS = ("blocks", "named", "unnamed", *("udma %s" % mode for mode in [*range(7), "none"]),
                 *("version %s" % version for version in [*range(1, 15), "none"]))


def items(text):
    """The `name: value` of one side of a line."""
    for item in text.split(", ") if text else []:
        name, colon, value = item.partition(":")
        if not colon:
            raise Unreadable("no name: " + item)
        yield name.strip(), value.strip()


def read_line(entry, line, case):
    """Adds what a line says to the steps of a case."""
    lent, _, wanted = line.partition("->")
    for name, value in items(lent.strip()):
        if name == "case":
            case.steps.append(Step(entry, {}, []))
        elif name == "then":
            case.steps.append(Step(value, {}, []))
        elif name in START or name in OTHER_NAMES:
            case.steps[-1].lent[name] = value
        else:
            raise Unreadable("nothing lent is called " + name)
    case.steps[-1].wanted.extend(items(wanted.strip()))


def read_example(entry, lines, first):
    """The cases of one example block, whose first line has this number."""
    cases = []
    for number, line in enumerate(lines, first):
        if line.startswith("case: "):
            name = re.split(", | ->", line[len("case: "):])[0]
            cases.append(Case(name, number, [], []))
        if not cases:
            raise Unreadable("line %d: an example begins with a case" % number)
        cases[-1].text.append(line)
        try:
            read_line(entry, line, cases[-1])
        except Unreadable as problem:
            raise Unreadable("line %d: %s" % (number, problem))
    return cases


def read_page(text):
    """The examples: for each block its cases."""
    lines = text.split("\n")
    blocks = []
    at = 0
    while at < len(lines):
        fence = re.fullmatch(r"```example (\w+)", lines[at])
        if fence:
            end = lines.index("```", at)
            blocks.append(read_example(fence[1], lines[at + 1:end], at + 2))
            at = end
        at += 1
    return blocks


def read_table(text):
    """The page's own table of refusals: status, key, ASC and ASCQ of each number."""
    rows = {}
    for number, status, codes in re.findall(r"^\| (\d+) \| [^|]*\| (..)h \| (?:(.. .. ..) )?\|$", text, re.M):
        rows[int(number)] = (int(status, 16), bytes.fromhex(codes))
    return rows


def coded(codes, form):
    """The sense data of section 10 that tell key, ASC and ASCQ alone; none where a row has no key."""
    if not codes:
        return b""
    if form != 2:
        return b"\x70\x00" + codes[:1] + bytes(4) + b"\x0A" + bytes(4) + codes[1:] + bytes(4)
    return b"\x72" + codes + bytes(4)


# ---- Trying a step


class Board:
    """The board behind ask.c: a call is a line, and so is what came back."""

    def __init__(self, command):
        self.process = subprocess.Popen(command, stdin=subprocess.PIPE, stdout=subprocess.PIPE, text=True)

    def call(self, entry, *lent):
        self.process.stdin.write(" ".join([entry] + [spelt(piece) for piece in lent]) + "\n")
        self.process.stdin.flush()
        answer = self.process.stdout.readline()
        if not answer.strip():
            raise Unreadable("ask.c has no entry %s" % entry if answer else "ask.c has ended")
        words = answer.split()
        return {name: unspelt(name, value) for name, value in zip(words[::2], words[1::2])}


def spelt(piece):
    if isinstance(piece, bytes):
        return piece.hex() or "-"
    if isinstance(piece, list):
        return ",".join(map(str, piece)) or "-"
    return str(piece)


def unspelt(name, word):
    if name in ("order", "held", "older"):
        return {field: int(value) for field, value in (pair.split(":") for pair in word.split(";"))}
    if name in ("rows", "census"):
        return [] if word == "-" else [int(row) for row in word.split(",")]
    if name in ("reply", "room", "sense", "record", "name", "store", "address", "command"):
        return b"" if word == "-" else bytes.fromhex(word)
    return int(word)


# What came back; how each value that is no number is compared; and what holds of every answer, named or not.
Outcome = collections.namedtuple("Outcome", "got compare always")


class Trial:
    """One case on the board: the record, intake and store that its steps hand on, and every difference found."""

    def __init__(self, board, table, lent):
        self.board, self.table, self.lent = board, table, lent
        empty = board.call("empty")
        self.record = self.emptied = empty["record"]
        self.held = empty["held"]
        self.have, self.sum, self.store = empty["have"], empty["sum"], filled(512)
        self.counts = read_census("empty")
        self.made = {}
        self.differences = []

    def want(self, what, wanted, got):
        if wanted != got:
            self.differences.append("%s: wanted %s, got %s" % (what, shown(wanted), shown(got)))

    def front(self, what, before, wanted, after):
        """The bytes that were written, and behind them what was there."""
        self.want(what, wanted + before[len(wanted):], after)

    def bytes(self, name):
        text = self.lent[name]
        if text == "intake":
            return self.store[:self.board.call("block", self.have, self.sum, len(self.store))["count"]]
        return self.made[text] if text in self.made else read_bytes(text)

    def room(self):
        return filled(int(self.lent["room"]))

    def sense(self):
        return filled(int(self.lent["sense room"]))

    def form(self):
        return read_number(self.lent["form"])

    def ports(self):
        """Which ports, the number of the relative one, and the address of the SAS one."""
        return read_ports(self.lent["ports"]), read_number(self.lent["port"]), self.bytes("address")

    def edition(self):
        """By its name, or a number, which need not be one of an edition."""
        text = self.lent["edition"]
        return EDITIONS[text] if text in EDITIONS else read_number(text)

    def step(self, step):
        self.lent.update(step.lent)
        if "have" in step.lent:
            self.have = int(step.lent["have"])
        if "census" in step.lent:
            self.counts = read_census(step.lent["census"])
        named = dict(step.wanted)
        if "number" not in named and step.entry not in PROGRAMS:
            raise Unreadable("a step names no number")
        got, compare, always = getattr(self, step.entry)()
        for name, value in step.wanted:
            if name in compare:
                compare[name](value)
            elif name == "status":
                self.want(name, "%02Xh" % int(value, 16), "%02Xh" % got[name])
            elif isinstance(got.get(name), int):
                self.want(name, read_number(value), got[name])
            else:
                raise Unreadable("%s has no %s" % (step.entry, name))
        always(named)

    def bytes_are(self, what, got):
        return {what: lambda text: self.want(what, read_bytes(text), got)}

    def sense_is(self, before, got):
        return {"sense": lambda text: self.front("sense", before, read_bytes(text), got["sense"])}

    def told(self, named, before, got):
        """A refusal has the status and sense bytes of its row; else no sense byte changes but those that are named."""
        if got["number"]:
            status, codes = self.table[got["number"]]
            self.want("status of section 3", status, got["status"])
            self.front("sense of section 3", before, coded(codes, self.form()), got["sense"])
        elif "sense" not in named:
            self.want("sense room", before, got["sense"])

    # The entries.

    def inquiry(self):
        before, sense, reply = self.room(), self.sense(), self.bytes("reply")
        got = self.board.call("inquiry", *map(self.bytes, ("command", "block", "signature", "texts")), reply, *self.ports(),
                              self.form(), before, sense)
        part, count, written = (reply, got["count"], 0) if got["shown"] == 0 else (got["room"], got["count"], got["count"])
        names = {0: "reply", 1: "room"}
        def always(named):
            self.told(named, sense, got)
            self.want("room past what is shown", before[written:], got["room"][written:])
            if got["number"]:
                self.want("what a refusal shows", (1, 0), (got["shown"], count))
        return Outcome({name: got[name] for name in ("number", "status", "count")},
                       {"part of": lambda text: self.want("part of", text, names.get(got["shown"])),
                        **self.bytes_are("shown", part[:count]), **self.sense_is(sense, got)}, always)

    def record_is(self, before, pending, got):
        """The order that was taken, by itself or, if it is a reset, over the one that was pending; or bytes as they were."""
        parts = got["state"], got["held"], got["older"]
        def compare(text):
            order = got.get("order")
            if text == "the order":
                self.want("record", (1, order, read_order("zeros")), parts)
            elif text == "both":
                self.want("record", (2, order, pending), parts)
            else:
                self.want("record", {"as it was": before, "empty": self.emptied}[text], got["record"])
        return {"record": compare}

    def submit(self):
        sense, before, pending = self.sense(), self.record, self.held
        pieces = map(self.bytes, ("command", "registers", "block"))
        got = self.board.call("submit", before, *pieces, int(self.lent["declared"]), self.edition(), self.form(), sense)
        self.record, self.held = got["record"], got["held"]
        def always(named):
            self.told(named, sense, got)
            if got["number"]:
                self.want("order of a refusal", read_order("zeros"), got["order"])
                self.want("record after a refusal", before, got["record"])
        return Outcome(got, {"order": lambda text: self.want("order", read_order(text), got["order"]),
                             **self.record_is(before, pending, got), **self.sense_is(sense, got)}, always)

    def complete(self):
        sense, before, pending = self.sense(), self.record, self.held
        got = self.board.call("complete", before, self.bytes("registers"), self.form(), sense)
        self.record, self.held = got["record"], got["held"]
        got["lost protocol"] = got.pop("lost_protocol")
        def always(named):
            self.told(named, sense, got)
            self.want("record afterwards", before if got["number"] else self.emptied, got["record"])
            for name in ("lost", "lost protocol"):
                if name not in named:
                    self.want(name + ", which is not named", 0, got[name])
        return Outcome(got, {**self.record_is(before, pending, got), **self.sense_is(sense, got)}, always)

    def counted(self, got, before, name):
        """An entry that writes `count` bytes to the front of a room."""
        count = got["count"]
        def always(named):
            self.want("room past what is written", before[count:], got["room"][count:])
            if got["number"]:
                self.want("count of a refusal", 0, count)
        return Outcome(got, self.bytes_are(name, got["room"][:count]), always)

    def write83(self):
        before = self.room()
        got = self.board.call("write83", self.bytes("block"), *self.ports(), before)
        self.made["written"] = got["room"][:got["count"]]
        return self.counted(got, before, "page")

    def gather(self):
        before, haves = self.room(), [int(have) for have in self.lent["haves"].split()]
        got = self.board.call("gather", haves, self.bytes("stores"), before)
        self.made["gathered"] = got["room"][:got["count"]]
        return self.counted(got, before, "gathered")

    def read83(self):
        """What a page tells of ports is named, or there is nothing of it."""
        got = self.board.call("read83", self.bytes("page"))
        nothing = {"ports": 0, "port": 0, "address": bytes(8)}
        def always(named):
            if got["number"]:
                self.want("form and name of a refusal", (0, bytes(60)), (got["form"], got["name"]))
            for name in nothing.keys() - (set() if got["number"] else named.keys()):
                self.want(name + " where none is named", nothing[name], got[name])
        return Outcome(got, {"name": lambda text: self.front("name", bytes(60), read_bytes(text), got["name"]),
                             "ports": lambda text: self.want("ports", read_ports(text), got["ports"]),
                             **self.bytes_are("address", got["address"])}, always)

    def roll(self):
        rows = [ROW_FILL] * int(self.lent["rows"])
        got = self.board.call("roll", self.bytes("blocks"), rows)
        blocks = got["blocks"]
        def always(named):
            self.want("rows past the block count", rows[blocks:], got["rows"][blocks:])
            if got["number"]:
                self.want("counts of a refusal", (0, 0), (blocks, got["drives"]))
        def compare(text):
            self.want("rows", [] if text == "none" else [int(row) for row in text.split()], got["rows"][:blocks])
        return Outcome(got, {"rows": compare}, always)

    def take(self):
        run, store, have, before = self.bytes("run"), self.store, self.have, (self.have, self.sum)
        got = self.board.call("take", have, self.sum, store, run)
        used = got["used"]
        self.have, self.sum, self.store = got["have"], got["sum"], got["store"]
        def always(named):
            self.want("store", store[:have] + run[:used] + store[have + used:], got["store"])
            if got["number"]:
                self.want("intake after a refusal", before + (0, 0), (got["have"], got["sum"], used, got["complete"]))
        return Outcome(got, self.bytes_are("store", got["store"][:got["have"]]), always)

    def block(self):
        got = self.board.call("block", self.have, self.sum, len(self.store))
        return Outcome(got, {}, lambda named: self.want("count of a refusal", 0, got["count"]) if got["number"] else None)

    def feed(self):
        before = self.counts
        got = self.board.call("feed", before, self.bytes("block"))
        self.counts = got["census"]
        def always(named):
            if got["number"]:
                self.want("census after a refusal", before, got["census"])
        return Outcome(got, {"census": lambda text: self.want("census", read_census(text), got["census"])}, always)

    def build(self):
        """The command is the front of what comes back, and behind it are zeros."""
        order = read_order(self.lent["order"])
        got = self.board.call("build", *(order[field] for field in ORDER_FIELDS))
        self.made["built"] = built = got["command"][:got["size"]]
        def always(named):
            self.want("bytes behind the command", bytes(16 - len(built)), got["command"][len(built):])
            if got["number"]:
                self.want("size of a refusal", 0, got["size"])
        return Outcome(got, self.bytes_are("command", built), always)

    def check(self):
        """Of accepted, tag and place those that are not named are zero."""
        got = self.board.call("check", self.bytes("capture"))
        def always(named):
            for name in ("accepted", "tag", "place"):
                if name not in named:
                    self.want(name, 0, got[name])
        return Outcome(got, {}, always)

    def rollcall(self):
        return self.program("rollcall")

    def census(self):
        return self.program("census")

    def bridgecheck(self):
        return self.program("bridgecheck")

    def program(self, name):
        """Every line that it prints."""
        ran = subprocess.run(["./run", name], input=self.bytes("input"), capture_output=True)
        lines = iter(ran.stdout.decode("ascii").splitlines())
        return Outcome({}, {"prints": lambda text: self.want("prints", text, next(lines, "nothing"))},
                       lambda named: self.want("more lines, standard error", ([], b""), (list(lines), ran.stderr)))


def filled(size):
    return bytes([FILL]) * size


def shown(value):
    if isinstance(value, bytes):
        return value.hex(" ").upper() or "no bytes"
    if isinstance(value, tuple):
        return " and ".join(map(shown, value))
    return str(value)


def differences(board, table, lent, case):
    try:
        trial = Trial(board, table, lent)
        for place, step in enumerate(case.steps, 1):
            before = len(trial.differences)
            trial.step(step)
            trial.differences[before:] = ["step %d, %s, %s" % (place, step.entry, d) for d in trial.differences[before:]]
        return trial.differences
    except (Unreadable, KeyError, ValueError, AttributeError, OSError) as problem:
        return ["cannot be tried: %s: %s" % (type(problem).__name__, problem)]


# ---- Holding the page against what it names


def numbers_in(cases):
    return {int(value) for case in cases for step in case.steps for name, value in step.wanted if name == "number"}


def definitions(text):
    """Every definition that a head line names, with the file that must have it."""
    for head in re.findall(r"^\*States:\*.*?(?=\*From:\*|\n\n)", text, re.M | re.S):
        file = None
        for word in re.findall(r"`([^`]+)`", head):
            if "/specs/" in word:
                file = pathlib.Path("crates", word + ".antt")
            else:
                yield file, word


def undefined(text):
    for file, name in definitions(text):
        lines = file.read_text() if file and file.exists() else ""
        if not re.search(r"^((abbrev|unfoldable) pub|pub record) %s\b" % re.escape(name), lines, re.M):
            yield "%s has no %s" % (file, name)


def entries():
    """The entries, as the header exports them; those that make an empty record, intake and census need no example."""
    header = pathlib.Path("include/piongseut.h").read_text()
    short = {"write_page83": "write83", "read_page83": "read83", "intake_take": "take", "intake_block": "block",
             "intake_gather": "gather", "census_feed": "feed"}
    exported = re.findall(r"^piongseut_\w+ piongseut_(\w+)\(", header, re.M)
    return {short.get(name, name) for name in exported if not name.endswith("empty")}


def page_checks(text, table, cases):
    tried = {step.entry for case in cases for step in case.steps}
    names = {word for case in cases for word in re.findall(r"^C\d+", case.name)}
    yield "the table has a row for each number from 1 to 23", sorted(set(range(1, 24)) ^ set(table))
    yield "every number has an example", sorted(set(range(24)) - numbers_in(cases))
    yield "every entry has an example", sorted((entries() | set(PROGRAMS)) - tried)
    yield "C1 to C13 are among the examples", sorted({"C%d" % n for n in range(1, 14)} - names)
    yield "every definition that the page names is there", list(undefined(text))


def main():
    text = pathlib.Path(sys.argv[1]).read_text()
    passed = failed = 0
    try:
        blocks = read_page(text)
    except (Unreadable, ValueError) as problem:
        print("not ok: the page cannot be read: %s" % problem)
        blocks, failed = [], 1
    board, table = Board(sys.argv[2:]), read_table(text)
    for cases in blocks:
        lent = dict(START)
        for case in cases:
            found = differences(board, table, lent, case)
            passed, failed = passed + (not found), failed + bool(found)
            if found:
                print("\n  ".join(["not ok: line %d, %s" % (case.line, case.name)] + case.text + ["difference: " + d for d in found]))
    for what, lacking in page_checks(text, table, [case for cases in blocks for case in cases]):
        passed, failed = passed + (not lacking), failed + bool(lacking)
        if lacking:
            print("not ok: %s; not so: %s" % (what, ", ".join(map(str, lacking))))
    print("%d passed, %d failed" % (passed, failed))
    return 1 if failed or not blocks else 0


sys.exit(main())
