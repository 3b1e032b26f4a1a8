#!/usr/bin/env python3
"""inputs.py DIR: writes the inputs of the suite into DIR, one file NAME.in each, from sections 5 and 11 of docs/RULES.md: a block is
512 bytes, word w is its bytes 2w (bits 7:0) and 2w+1 (bits 15:8), a text has two letters a word, the first in bits 15:8;
serial words 10-19, model words 27-46, name words 108-111, which count where word 87 says so. Nothing of the board is used."""
import glob
import os
import sys

BLOCK = 512
NAMED = 0x4100  # word 87 of a drive that has a name


def put_word(block, number, value):
    block[2 * number:2 * number + 2] = value.to_bytes(2, "little")


def put_text(block, first, size, text, fill):
    """A text of so many bytes from a word on, filled up with spaces or with zero bytes."""
    whole = text.encode().ljust(size, fill)
    for i in range(0, size, 2):
        block[2 * first + i] = whole[i + 1]
        block[2 * first + i + 1] = whole[i]


def put_name(block, name):
    """The name's four words, the highest first."""
    for i in range(4):
        put_word(block, 108 + i, name >> (16 * (3 - i)) & 0xFFFF)


def drive(model, serial, name=0, fill=b" ", firmware="1.0", word_87=NAMED):
    block = bytearray(BLOCK)
    put_text(block, 10, 20, serial, fill)
    put_text(block, 23, 8, firmware, b" ")
    put_text(block, 27, 40, model, fill)
    put_name(block, name)
    put_word(block, 87, word_87 if name else 0)
    return bytes(block)


def sample():
    """The three blocks of the rule book's sample."""
    blocks = [bytearray(BLOCK) for _ in range(3)]
    for block in blocks[:2]:
        block[174:176] = bytes.fromhex("0041")
        block[216:224] = bytes.fromhex("005000C534127856")
    blocks[1][20] = 0x41
    return [bytes(block) for block in blocks]


def many(count):
    """So many different drives; those at odd places carry a name."""
    return [drive("PIONG DISK", "N%d" % i, 0x5000C50000000000 + i if i % 2 else 0) for i in range(count)]


def real():
    """The blocks under data/identify, in the order of their names."""
    here = os.path.join(os.path.dirname(os.path.abspath(__file__)), "..", "..", "data", "identify")
    return [open(path, "rb").read() for path in sorted(glob.glob(os.path.join(here, "*.bin")), key=os.fsencode)]


def names():
    """Names that differ in one bit each, a zero name byte beside one of 20h, and last the first name again."""
    base = 0x5000C50012345678
    return [drive("A", "1", name) for name in (base, base ^ 1, base ^ 1 << 63, base | 0x2000000000, 0, 1, 1 << 48, base)]


def mixed():
    """64 blocks drawn from few drives, in many spellings of each; always the same ones, by a counter that jumps about."""
    state = 1

    def draw(choices):
        nonlocal state
        state = (state * 1103515245 + 12345) % 2**31
        return choices[(state >> 16) % len(choices)]

    return [
        drive(
            draw(("PIONG DISK", "PIONG DISK 2", "")),
            draw(("N1", "N2", "N10")),
            draw((0, 0, 0, 0x5000C50000000001, 0x5000C50000000002)),
            draw((b" ", b"\0")),
            draw(("1.0", "2.0")),
        )
        for _ in range(64)
    ]


FACTORY = int.from_bytes(b"FACTORY ", "big")  # text in the place of a name


def one_maker():
    """Twelve drives of a maker who leaves the same factory text in the name words of all, and says in word 87 that none has a name."""
    return [drive("PIONG DISK", "SN%04d" % bay, FACTORY, word_87=0x4000) for bay in range(12)]


def name_words():
    """One drive by its texts, and one by its name: whatever word 87 says but that there is a name, it is the first; then it is the second."""
    says_none = (0x4000, 0x0000, 0x0100, 0x8100, 0xC100, 0xBFFF, 0xFFFF, 0x7EFF, 0x0041)
    return [drive("PIONG DISK", "N1", FACTORY, word_87=word) for word in says_none + (0x4100, 0x7FFF)]


def closed(block):
    """Byte 510 is A5h, and byte 511 such that all 512 sum to 0 modulo 256."""
    front = block[:510] + b"\xa5"
    return front + bytes([-sum(front) % 256])


def changed(block):
    """On a loose cable two letters of the serial number became others."""
    return block[:21] + b"TM" + block[23:]


BAYS = [drive("PIONG DISK", "SN%04d" % bay) for bay in range(4)]
CLOSED = [closed(block) for block in BAYS]

LONG = "PIONG DISK SEVEN"  # sixteen letters

INPUTS = {
    "sample": sample(),
    # Sizes.
    "blocks_0": [],
    "blocks_1": [drive("PIONG DISK", "N1")],
    "blocks_64": many(64),
    "blocks_65": many(65),
    "blocks_80": many(80),
    "bytes_1": [b"\0"],
    "bytes_511": [bytes(511)],
    "bytes_513": [bytes(513)],
    "bytes_32767": [b"".join(many(64))[:-1]],
    "bytes_32769": many(64) + [b"\0"],
    "real": real(),
    # Version one's fault: eight bays of one make and model, then two models that part after sixteen letters.
    "eight_bays": [drive(LONG, "SN%04d" % bay) for bay in range(8)],
    "sixteen_letters": [drive(LONG + " A", "N1"), drive(LONG + " B", "N1"), drive(LONG + " A", "N1")],
    # Version two's fault: one drive, its texts filled up with zero bytes, then with spaces; texts of odd length.
    "zeros_and_spaces": [drive("PIONG DISK1", "N10", fill=b"\0"), drive("PIONG DISK1", "N10", fill=b" ")],
    "no_texts": [drive("", "", fill=b"\0"), drive("", "", fill=b" "), drive("", "N1")],
    # What a name decides, and what it leaves.
    "name_decides": [drive("PIONG DISK", "N1", 0x5000C50012345678), drive("OTHER", "N2", 0x5000C50012345678)],
    "name_or_none": [drive("PIONG DISK", "N1", 0x5000C50012345678), drive("PIONG DISK", "N1"), drive("PIONG DISK", "N1", 1)],
    "names": names(),
    "one_maker": one_maker(),
    "name_words": name_words(),
    "firmware": [drive("PIONG DISK", "N1", firmware="1.0"), drive("PIONG DISK", "N1", firmware="2.0")],
    "model_or_serial": [drive("A", "B"), drive("B", "A"), drive("AB", ""), drive("A", "B")],
    "letter_case": [drive("Piong", "n1"), drive("PIONG", "N1"), drive("PIONG", " N1")],
    # A checksum that is right, and one that is not, of the first block and of the last; the same change where there is no checksum.
    "checksums": CLOSED + CLOSED,
    "loose_cable": CLOSED + [changed(CLOSED[2])],
    "loose_cable_first": [changed(CLOSED[0])] + CLOSED,
    "no_checksum": BAYS + [changed(BAYS[2])],
    "checksum_behind_full_bays": many(63) + [changed(CLOSED[0])],
    "checksum_of_65_blocks": many(64) + [changed(CLOSED[0])],
    # Rows by first appearance: a b a c b c d a.
    "first_appearance": [drive("PIONG DISK", serial) for serial in "abacbcda"],
    "mixed": mixed(),
}


def main():
    for name, pieces in INPUTS.items():
        with open(os.path.join(sys.argv[1], name + ".in"), "wb") as file:
            file.write(b"".join(pieces))


main()
