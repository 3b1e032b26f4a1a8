#!/usr/bin/env python3
"""judge.py FOLDER WAY: holds what the kernel and the clients inside made of the shelf against what the second program answers for the
same blocks, against the drives that rollcall counts, and against the drives' descriptions. FOLDER has
  pages        what the second program's `pages` prints for the blocks of all bays
  rolls        a line for each group of bays, and for all: its name, and the drives that rollcall counts
  WAY/shelf/   the bays, as shelf.py makes them
  WAY/facts/   what `inside` wrote
  WAY/host.log, WAY/board.log  the commands that the host sent and those that reached the board
The way to the bays is `adapter`, where all comes to the kernel as the board and the block layer wrote it, or `generic`, QEMU's own
disks, which change some of it (docs/CLIENTS.md): what they make of it is held then, as exactly.
Where nothing is wrong it then shows that it notices: it judges the same again with one thing changed, for each of many things."""
import collections
import copy
import hashlib
import pathlib
import re
import sys

FACTS = "vendor", "model", "rev", "wwid", "inquiry", "vpd_pg0", "vpd_pg80", "vpd_pg83", "vpd_pg89"
BY_ATTRIBUTES = "Warning: This result is based on an Attribute check.\n"
WRITTEN = "".join("%d\n" % number for number in range(1, 100001)).encode()

# What each group of bays must come to, whatever rollcall says.
DRIVES = {
    "eight-with-names": 8,
    "eight-without-names": 8,
    "one-with-name-in-two-bays": 1,
    "one-without-name-in-two-bays": 1,
    "one-with-zeros-and-spaces": 1,
}

# One drive in two bays, each of which tells the path to it.
BY_TWO_PATHS = "one-with-name-in-two-bays", "one-without-name-in-two-bays"

# All that the kernel says of a disk that it has no complaint about.
CALM = re.compile(
    r"SCSI subsystem initialized|scsi host\d+: Virtio SCSI HBA|scsi [\d:]+: Direct-Access     .{8} .{16} .{4} PQ: 0 ANSI: 5"
    r"|sd [\d:]+: (Attached scsi generic sg\d+ type 0"
    r"|\[sd[a-z]+\] (\d+ 512-byte logical blocks: .*|Write Protect is off|Mode Sense: [0-9a-f ]+|Attached SCSI disk"
    r"|Write cache: enabled, read cache: enabled, doesn't support DPO or FUA))"
    r"|EXT4-fs \(sd[a-z]+\): (mounting ext2 file system using the ext4 subsystem|mounted filesystem without journal.*|unmounting .*)")
# What it says once of each of QEMU's own disks, since QEMU tells it so; neither the board nor the block layer does.
QEMU_RESET = re.compile(r"sd [\d:]+: Power-on or device reset occurred")
# What it says of disks at all, in whatever words; what a slow machine makes it say of clocks is not of them.
OF_DISKS = re.compile(r"(?i)scsi|\bs[dg][a-z0-9]*\b|I/O error|inquiry|sense|vpd")


# ---- what there is to judge ----

def lines(path):
    return path.read_text(errors="replace").splitlines()


def evidence(folder, way):
    shelf, facts = folder / way / "shelf", folder / way / "facts"
    bays = [line.split() for line in lines(shelf / "bays")]
    pages = collections.defaultdict(dict)
    for line in lines(folder / "pages"):
        place, asked, number, status, shown = line.split()
        if (number, status) == ("0", "00"):
            pages["%02d" % int(place)][asked] = bytes.fromhex(shown)
    return {
        "generic": way == "generic",
        "groups": dict(bays),
        "described": {bay: (shelf / bay).read_text() for bay, _ in bays},
        "pages": dict(pages),
        "rolls": {name: int(count) for name, count in (line.split() for line in lines(folder / "rolls"))},
        "facts": {file.name: {fact.name: fact.read_bytes() for fact in file.iterdir()}
                  for file in facts.iterdir() if re.fullmatch(r"\d\d", file.name)},
        "said": {file.name: file.read_text(errors="replace") for file in (facts / "said").iterdir()},
        "kernel": lines(facts / "kernel.log"),
        "board": lines(folder / way / "board.log"),
        "host": lines(folder / way / "host.log"),
        "disk": (shelf / "00.disk").read_bytes(),
    }


# ---- what the kernel must have made of a drive's pages ----

def cleaned(text):
    """The kernel makes a space of every byte of a text in standard data that is not printable, and of all behind a zero."""
    return bytes(byte if 0x20 <= byte <= 0x7E else 0x20 for byte in text.partition(b"\0")[0]).ljust(len(text))


def wwid(page83):
    """The name of the first descriptor that the board makes: a world wide name, or vendor, model and serial number."""
    name = page83[8:8 + page83[7]]
    return b"naa." + name.hex().encode() if page83[5] == 0x03 else b"t10." + name


def listed(page00, generic):
    """QEMU's own disks have a page B0h that QEMU makes, so it puts it into the list of pages, which is in order."""
    codes = sorted({*page00[4:], 0xB0}) if generic else page00[4:]
    return page00[:2] + len(codes).to_bytes(2, "big") + bytes(codes)


def wanted(pages, generic):
    standard = pages["standard"]
    vendor, model, rev = cleaned(standard[8:16]), cleaned(standard[16:32]), cleaned(standard[32:36])
    return {
        "vendor": vendor + b"\n", "model": model + b"\n", "rev": rev + b"\n",
        "wwid": wwid(pages["83h"]) + b"\n",
        "inquiry": standard[:8] + vendor + model + rev + standard[36:],
        "vpd_pg0": listed(pages["00h"], generic),
        "vpd_pg80": pages["80h"], "vpd_pg83": pages["83h"], "vpd_pg89": pages["89h"],
    }


# ---- the checks: each gives what it is of, and what is wrong if something is ----

def disks(seen):
    for bay in seen["groups"]:
        want, have = wanted(seen["pages"][bay], seen["generic"]), seen["facts"].get(bay, {})
        for fact in FACTS:
            wrong = "" if want[fact] == have.get(fact) else "wanted %r, the kernel has %r" % (want[fact], have.get(fact))
            yield "bay %s: %s" % (bay, fact), wrong


def drives(seen):
    for group, count in seen["rolls"].items():
        members = [bay for bay, of in seen["groups"].items() if group in (of, "all")]
        names = {seen["facts"][bay]["wwid"] for bay in members if bay in seen["facts"]}
        wrong = "" if len(names) == count else "%d different names in the kernel, %d drives in rollcall" % (len(names), count)
        yield "%s: the kernel has as many names as rollcall drives" % group, wrong
    for group, count in DRIVES.items():
        have = seen["rolls"].get(group)
        yield "%s: %d" % (group, count), "" if have == count else "rollcall says %s" % have


def paths(seen):
    for group in BY_TWO_PATHS:
        facts = [seen["facts"].get(bay, {}) for bay, of in seen["groups"].items() if of == group]
        names, pages = ({fact.get(of) for fact in facts} for of in ("wwid", "vpd_pg83"))
        wrong = "" if (len(facts), len(names), len(pages)) == (2, 1, 2) else "%d names, %d pages 83h" % (len(names), len(pages))
        yield "%s: the kernel has one name, and two paths in page 83h" % group, wrong


def kernel_log(seen):
    log = [re.fullmatch(r"<\d+>\[ *[\d.]+\] (.*)", line) for line in seen["kernel"]]
    texts = [found[1] for found in log if found]
    start = [at for at, text in enumerate(texts) if text.startswith("shelf:")]
    after = texts[start[0] + 1:] if start else []
    if seen["generic"]:
        for text in set(filter(QEMU_RESET.fullmatch, after)):
            after.remove(text)
    wrong = [text for text in after if OF_DISKS.search(text) and not CALM.fullmatch(text)]
    attached = sum("Attached SCSI disk" in text for text in after)
    yield "the kernel's log has no complaint", "; ".join(wrong[:4])
    yield "the kernel attaches every disk", "" if attached == len(seen["groups"]) else "it attaches %d" % attached


def fits(pages, command, number, status):
    """A page that page 00h lists is shown, any other is refusal 5; every pass-through command of the clients inside is taken."""
    if command.startswith("12"):
        served = command[2:4] == "00" or int(command[4:6], 16) in pages["00h"][4:]
        return (number, status) == (("0", "00") if served else ("5", "02"))
    return number == "0" and status in ("00", "02")


def board_log(seen):
    log = [re.fullmatch(r"(\d\d) ([0-9a-f]+) number=(\d+) status=(..) moved=(\d+) sense=([0-9a-f]*)", line) for line in seen["board"]]
    strange = [line for line, found in zip(seen["board"], log)
               if not found or not fits(seen["pages"][found[1]], *found.group(2, 3, 4))]
    yield "every command that reached the board has the number and status that it must have", "; ".join(strange[:4])
    sent = [line.replace(" board ", " ") for line in seen["host"] if " board " in line]
    had = ["%s %s status=%s moved=%s" % found.group(1, 2, 4, 5) for found in log if found]
    lost = "" if sent and sent == had else "%d sent, %d logged" % (len(sent), len(had))
    yield "every command that the host sent to the board is in its log", lost
    asked = {(found[1], found[2][:6]) for found in log if found}
    starts = ["120000", "120100", "120180", "120183", "120189", "8508"] + ["1201b0"] * seen["generic"]
    for bay in seen["groups"]:
        lacking = [start for start in starts if not any(of == bay and command.startswith(start) for of, command in asked)]
        yield "bay %s: the kernel asks for every page, and a client for the block" % bay, " ".join(lacking)


def block_layer(seen):
    asked = {line.split()[2][:2] for line in seen["host"] if " blocks " in line and " status=00 " in line}
    lacking = {"00", "25", "28", "2a", "1a", "35", "9e"} - asked
    yield "the block layer tells the capacity, reads, writes and flushes", " ".join(sorted(lacking))
    said = seen["said"].get("files", "nothing")
    right = said == "%s  -\nstatus 0\n" % hashlib.sha256(WRITTEN).hexdigest()
    yield "a file system is made, written, unmounted, mounted and read back", "" if right else said
    yield "what was written stands on the disk", "" if WRITTEN[-4096:] in seen["disk"] else "the disk does not have it"


def smartctl_said(text, generic):
    """The verdict and the status, where it has the drive's registers; or has not, and says that it judges by the attributes."""
    found = re.search(r"self-assessment test result: (.*)\n(?:.*\n)*status (\d+)\n$", text)
    return found and {"registers missing\n" in text, BY_ATTRIBUTES in text} == {generic} and found.groups()


def hdparm_said(text, generic):
    """The power state; and where sense data are fixed it shows them, with key and codes, and no register."""
    state = re.search(r"drive state is: +(.*)\nstatus 0\n", text)
    shown = re.search(r"^SG_IO: bad/missing sense data, sb\[\]:(.*)\n", text)
    fixed = "70 00 01 00 00 00 00 0a 00 00 00 00 00 1d" + 18 * " 00"
    return state and (shown and shown[1].strip()) == (fixed if generic else None) and state[1]


def clients(seen):
    for bay, text in seen["described"].items():
        health = ("FAILED!", "24") if "\nhealth failing\n" in text else ("PASSED", "0")
        said = seen["said"].get(bay + ".smartctl", "nothing")
        yield "bay %s: smartctl -d sat -H says %s" % (bay, health[0]), "" if smartctl_said(said, seen["generic"]) == health else said
        power = "unknown" if seen["generic"] else "standby" if "\npower standby\n" in text else "active/idle"
        said = seen["said"].get(bay + ".hdparm", "nothing")
        yield "bay %s: hdparm -C says %s" % (bay, power), "" if hdparm_said(said, seen["generic"]) == power else said


def judged(seen):
    return [found for check in (disks, drives, paths, kernel_log, board_log, block_layer, clients) for found in check(seen)]


# ---- that it notices ----

def flipped(data, at):
    return data[:at] + bytes((data[at] ^ 1,)) + data[at + 1:]


def change(what, *places):
    """A change of what was seen at these places, the last of which gets what the function makes of it."""
    def done(seen):
        for place in places[:-1]:
            seen = seen[place]
        seen[places[-1]] = what(seen[places[-1]])
    return done


def no_disk(seen):
    del seen["facts"]["09"]


def same_name(seen):
    seen["facts"]["01"]["wwid"] = seen["facts"]["00"]["wwid"]


def other_name(seen):
    seen["facts"]["21"]["wwid"] = seen["facts"]["20"]["wwid"].replace(b"Z", b"Y")


def one_path(seen):
    seen["facts"]["17"]["vpd_pg83"] = seen["facts"]["16"]["vpd_pg83"]


def other_list(seen):
    seen["facts"]["04"]["vpd_pg0"] = listed(seen["pages"]["04"]["00h"], not seen["generic"])


NAMES = "%s: the kernel has as many names as rollcall drives"
PLANTS = (
    ("a bit of the second program's page 83h", change(lambda page: flipped(page, 15), "pages", "03", "83h"),
     {"bay 03: vpd_pg83", "bay 03: wwid"}),
    ("a bit of page 89h in the kernel", change(lambda page: flipped(page, 571), "facts", "05", "vpd_pg89"), {"bay 05: vpd_pg89"}),
    ("a bit of page 80h in the kernel", change(lambda page: flipped(page, 23), "facts", "20", "vpd_pg80"), {"bay 20: vpd_pg80"}),
    ("a bit of page 00h in the kernel", change(lambda page: flipped(page, 6), "facts", "27", "vpd_pg0"), {"bay 27: vpd_pg0"}),
    ("page 00h of the other way in the kernel", other_list, {"bay 04: vpd_pg0"}),
    ("a bit of standard data in the kernel", change(lambda page: flipped(page, 2), "facts", "08", "inquiry"), {"bay 08: inquiry"}),
    ("another revision in the kernel", change(lambda text: flipped(text, 0), "facts", "16", "rev"), {"bay 16: rev"}),
    ("a drive that the kernel has not", no_disk,
     {"bay 09: " + fact for fact in FACTS} | {NAMES % "eight-without-names", NAMES % "all"}),
    ("two drives under one name", same_name, {"bay 01: wwid", NAMES % "eight-with-names", NAMES % "all"}),
    ("one drive under two names", other_name, {"bay 21: wwid", NAMES % "one-with-zeros-and-spaces", NAMES % "all"}),
    ("one path in two bays", one_path,
     {"bay 17: vpd_pg83", "one-with-name-in-two-bays: the kernel has one name, and two paths in page 83h"}),
    ("a drive that rollcall does not count", change(lambda count: count - 1, "rolls", "eight-without-names"),
     {NAMES % "eight-without-names", "eight-without-names: 8"}),
    ("a complaint in the kernel's log",
     change(lambda log: log + ["<6>[    9.000000] scsi scan: INQUIRY result too short (5), using 36"], "kernel"),
     {"the kernel's log has no complaint"}),
    ("a refused page", change(lambda log: [log[0].replace("number=0 status=00", "number=6 status=02")] + log[1:], "board"),
     {"every command that reached the board has the number and status that it must have",
      "every command that the host sent to the board is in its log"}),
    ("a command that is not logged", change(lambda log: log[1:], "board"),
     {"every command that the host sent to the board is in its log"}),
    ("another file read back", change(lambda said: said.replace("a", "b"), "said", "files"),
     {"a file system is made, written, unmounted, mounted and read back"}),
    ("a failing drive that passes", change(lambda said: said.replace("FAILED!", "PASSED"), "said", "27.smartctl"),
     {"bay 27: smartctl -d sat -H says FAILED!"}),
)
PLANTS_ADAPTER = (
    ("a sleeping drive that is awake", change(lambda said: said.replace("standby", "active/idle"), "said", "27.hdparm"),
     {"bay 27: hdparm -C says standby"}),
    ("a verdict by the attributes", change(lambda said: said.replace("status", BY_ATTRIBUTES + "status"), "said", "06.smartctl"),
     {"bay 06: smartctl -d sat -H says PASSED"}),
    ("a reset", change(lambda log: log + ["<5>[    9.000000] sd 0:0:3:0: Power-on or device reset occurred"], "kernel"),
     {"the kernel's log has no complaint"}),
)
PLANTS_GENERIC = (
    ("a power state", change(lambda said: said.replace("unknown", "standby"), "said", "27.hdparm"),
     {"bay 27: hdparm -C says unknown"}),
    ("another key in sense data", change(lambda said: said.replace("70 00 01", "70 00 05"), "said", "03.hdparm"),
     {"bay 03: hdparm -C says unknown"}),
    ("a verdict by the registers", change(lambda said: said.replace(BY_ATTRIBUTES, ""), "said", "06.smartctl"),
     {"bay 06: smartctl -d sat -H says PASSED"}),
    ("a second reset", change(lambda log: log + [line for line in log if "Power-on" in line][:1], "kernel"),
     {"the kernel's log has no complaint"}),
    ("a page B0h of the board", change(lambda log: [re.sub(r"(1201b0.* )number=5", r"\1number=0", line) for line in log], "board"),
     {"every command that reached the board has the number and status that it must have"}),
)


def noticed(seen):
    """Of what was seen without fault."""
    for what, plant, labels in PLANTS + (PLANTS_GENERIC if seen["generic"] else PLANTS_ADAPTER):
        changed = copy.deepcopy(seen)
        plant(changed)
        found = {label for label, wrong in judged(changed) if wrong}
        yield "planted: %s is noticed" % what, "" if found == labels else "found: %s" % ("; ".join(sorted(found)) or "nothing")


def main():
    folder, way = sys.argv[1:]
    seen = evidence(pathlib.Path(folder), way)
    found = judged(seen)
    if not any(wrong for _, wrong in found):
        found += noticed(seen)
    for label, wrong in found:
        print("not ok %s: %s: %s" % (way, label, wrong[:600]) if wrong else "ok %s: %s" % (way, label))
    failed = sum(bool(wrong) for _, wrong in found)
    print("%d passed, %d failed" % (len(found) - failed, failed))
    sys.exit(failed > 0)


main()
