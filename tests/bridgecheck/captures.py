#!/usr/bin/env python3
"""captures.py DIR: writes captures into DIR, NAME.capture each: the pages that the board writes of the real drives in data/identify,
made here from sections 5 to 7 of docs/RULES.md, and ways to spoil them. `captures.py --stored` writes the one that stands in
crates/bridgecheck/stdin to standard output; `captures.py --taken DIR` makes captures of the lines that `take` reads out of a machine.
Nothing of the board is used."""
import glob
import os
import sys

HERE = os.path.dirname(os.path.abspath(__file__))
sys.path.insert(0, os.path.join(HERE, "..", "..", "tools"))
import identify  # noqa: E402

TAGS = {"00": 0x00, "standard": 0x01, "80": 0x80, "83": 0x83, "89": 0x89}
TEXTS = b"PIONGSEUBRIDGE BOARD    4.00"
SIGNATURE = bytes.fromhex("3400500101000000000000000100000000000000")
PACKET = SIGNATURE[:5] + b"\x14\xeb" + SIGNATURE[7:]
ADDRESS = bytes.fromhex("5000c50011223344")
PORTS = {"none": b"",
         "relative_1": bytes.fromhex("6194000400000001"),
         "relative_2": bytes.fromhex("6194000400000002"),
         "sas": bytes.fromhex("61930008") + ADDRESS,
         "both": bytes.fromhex("6194000400000002") + bytes.fromhex("61930008") + ADDRESS}


def drives():
    """Name and block of each real drive, in the order of the names."""
    for path in sorted(glob.glob(os.path.join(HERE, "..", "..", "data", "identify", "*.bin")), key=os.fsencode):
        with open(path, "rb") as file:
            yield os.path.basename(path)[:-len(".bin")], file.read()


def field(tag, content):
    return bytes([tag]) + len(content).to_bytes(2, "big") + content


def capture(pages):
    """The fields in the order in which they are named."""
    return b"".join(field(TAGS[name], content) for name, content in pages.items())


def descriptor(head, content):
    """Two bytes of kind, a reserved one, the length, and what it says."""
    return head + bytes([0x00, len(content)]) + content


def page83(told):
    return bytes([0x00, 0x83]) + len(told).to_bytes(2, "big") + told


def page89(texts, signature, block):
    return bytes.fromhex("0089023800000000") + texts + signature.ljust(20, b"\0") + bytes.fromhex("ec000000") + block


def own(block, ports="none", signature=SIGNATURE):
    """What the board writes."""
    revision = identify.turned(block, (25, 26))
    if revision == b"    ":
        revision = identify.turned(block, (23, 24))
    removable = 0x80 if identify.word(block, 0) & 0x80 else 0x00
    if identify.carries_name(block):
        name = descriptor(b"\x01\x03", identify.name(block))
    else:
        name = descriptor(b"\x02\x01", b"ATA     " + identify.model(block) + identify.serial(block))
    return {"00": bytes.fromhex("0000000400808389"),
            "standard": bytes([0x00, removable]) + bytes.fromhex("05021f000000") + b"ATA     "
            + identify.turned(block, identify.MODEL)[:16] + revision,
            "80": bytes.fromhex("00800014") + identify.serial(block),
            "83": page83(name + PORTS[ports]),
            "89": page89(TEXTS, signature, block)}


def changed(content, at, value):
    return content[:at] + bytes([value]) + content[at + 1:]


def stored():
    """A bridge that puts the number of its port where the zero bytes belong."""
    block = dict(drives())["INTEL_SSDSA2MH080G1GC--045C8820"]
    pages = own(block, "relative_1")
    pages["83"] = pages["83"][:20] + bytes([1, 0, 0, 0])
    return capture(pages)


def own_captures():
    for drive, block in drives():
        for ports in PORTS:
            yield "own.%s.%s" % (ports, drive), capture(own(block, ports))
    pages = own(dict(drives())["FUJITSU_MHY2120BH--0084000D"], "both")
    for left_out in list(pages)[:4]:
        yield "own.without_" + left_out, capture({name: pages[name] for name in pages if name != left_out})
    yield "own.89_alone", capture({"89": pages["89"]})
    yield "own.address_of_zeros", capture({**pages, "83": pages["83"][:-8] + bytes(8)})
    for at, value in ((41, 0x14), (42, 0xEB)):
        yield "own.packet_in_byte_%d_alone" % at, capture({**pages, "89": changed(pages["89"], at, value)})


def differing(kind, pages):
    """Fields with one byte changed, cut, or with more behind them; of 83h also what is near to a choice of ports."""
    for name, at, value in [("00", 0, 5), ("00", 7, 0xB0), ("standard", 1, 0x80), ("standard", 4, 0x5B), ("standard", 35, 0x21),
                            ("80", 1, 0x81), ("80", 23, 0x21), ("83", 0, 5), ("83", 3, 0), ("83", 8, 0x21), ("83", 23, 3),
                            ("89", 0, 5), ("89", 4, 1), ("89", 56, 0xA1), ("89", 59, 1), ("89", 8, 0x21), ("89", 55, 0x21)]:
        yield "%s.%s_byte_%d" % (kind, name, at), capture({**pages, name: changed(pages[name], at, value)})
    for name in list(pages)[:4]:
        size = len(pages[name])
        for length in (0, 4, size - 1):
            yield "%s.%s_of_%d" % (kind, name, length), capture({**pages, name: pages[name][:length]})
        yield "%s.%s_of_%d" % (kind, name, size + 1), capture({**pages, name: pages[name] + b"\0"})
    both = {**pages, "80": changed(pages["80"], 9, 0), "00": changed(pages["00"], 3, 5)}
    yield kind + ".two_fields", capture(both)


def foreign_ports(pages):
    """Page 83h of a drive with a name, and descriptors in another order, another number, or an address cut off."""
    name = pages["83"][4:16]
    relative, sas = PORTS["relative_1"], PORTS["sas"]
    for what, told in [("sas_first", sas + relative), ("two_numbers", relative + PORTS["relative_2"]), ("two_addresses", sas + sas),
                       ("port_0", changed(relative, 7, 0)), ("port_3", changed(relative, 7, 3)), ("port_257", changed(relative, 6, 1)),
                       ("no_protocol", b"\x01\x14" + relative[2:]), ("device_port", changed(sas, 1, 0xA3))]:
        yield "ports." + what, capture({**pages, "83": page83(name + told)})
    cut = page83(name + relative + sas)
    for size in (16, 20, 24, 28, 29, 35):
        yield "ports.cut_to_%d" % size, capture({**pages, "83": cut[:size]})
    yield "ports.counted_and_missing", capture({**pages, "83": changed(page83(name), 3, 0x14)})
    yield "ports.there_and_not_counted", capture({**pages, "83": changed(page83(name + relative), 3, 0x0C)})


def broken(pages, packet, damaged):
    whole = capture(pages)
    head = capture({name: pages[name] for name in list(pages)[:4]})
    yield "broken.empty", b""
    yield "broken.one_byte", b"\x00"
    yield "broken.two_bytes", b"\x89\x02"
    yield "broken.no_89", head
    yield "broken.tag_02", field(0x02, b"") + whole
    yield "broken.tag_8A_behind", whole + field(0x8A, b"")
    yield "broken.twice", field(0x00, pages["00"]) + whole
    yield "broken.falls", field(0x80, pages["80"]) + whole
    yield "broken.byte_behind", whole + b"\x00"
    yield "broken.field_behind", whole + field(0x89, pages["89"])
    yield "broken.cut", whole[:-1]
    yield "broken.cut_in_83", head[:-5]
    yield "broken.89_of_571", head + field(0x89, pages["89"][:571])
    yield "broken.89_of_573", head + field(0x89, pages["89"] + b"\0")
    yield "broken.89_of_0", field(0x89, b"")
    yield "broken.packet_too", capture(packet) + b"\x00"
    yield "broken.damaged_too", capture(damaged) + b"\x00"
    yield "packet.all", capture(packet)
    yield "packet.damaged_too", capture({**packet, "89": packet["89"][:60] + damaged["89"][60:]})
    yield "packet.differs_too", capture({**packet, "00": b""})
    yield "damaged.all", capture(damaged)
    yield "damaged.differs_too", capture({**damaged, "00": b""})


def longest(pages):
    """The longest capture whose layout holds, and longer ones."""
    whole = capture({**{name: bytes(65535) for name in list(pages)[:4]}, "89": pages["89"]})
    yield "long.most", whole
    yield "long.one_more", whole + b"\x89"
    yield "long.without_89", whole[:-575] + field(0x83, b"")
    yield "long.89_too_long", whole[:-575] + field(0x89, bytes(60000))
    yield "long.zeros", bytes(1 << 20)
    yield "long.ones", b"\xff" * (1 << 20)


def captures():
    blocks = dict(drives())
    named, unnamed = blocks["FUJITSU_MHY2120BH--0084000D"], blocks["ST320410A--3.39"]
    spoilt = own(named)
    spoilt["89"] = changed(spoilt["89"], 60 + 30, 0x21)
    yield "stored", stored()
    yield from own_captures()
    yield from differing("named", own(named, "both"))
    yield from differing("unnamed", own(unnamed))
    yield from foreign_ports(own(named))
    yield from broken(own(named), own(named, signature=PACKET), spoilt)
    yield from longest(own(unnamed))


def taken(folder):
    """Lines of a device, a file and its bytes: a capture of each device, named by whose pages they are."""
    files = {"vpd_pg0": "00", "inquiry": "standard", "vpd_pg80": "80", "vpd_pg83": "83", "vpd_pg89": "89"}
    devices = {}
    for line in sys.stdin:
        device, file, digits = line.split()
        devices.setdefault(device, {})[files[file]] = bytes.fromhex(digits)
    for pages in devices.values():
        name = "qemu" if "89" not in pages else "scsi_debug" if b"scsi_debug" in pages["89"] else "libata_named"
        if name == "libata_named" and not identify.carries_name(pages["89"][60:]):
            name = "libata_unnamed"
        with open(os.path.join(folder, name + ".capture"), "wb") as file:
            file.write(capture(pages))


def main():
    if sys.argv[1] == "--taken":
        taken(sys.argv[2])
        return
    if sys.argv[1] == "--stored":
        sys.stdout.buffer.write(stored())
        return
    for name, content in captures():
        with open(os.path.join(sys.argv[1], name + ".capture"), "wb") as file:
            file.write(content)


if __name__ == "__main__":
    main()
