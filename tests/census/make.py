#!/usr/bin/env python3
"""make.py DIR: writes inputs for the program `census` into DIR, one file NAME.in each: blocks in which every word that a class hangs
on is tried (docs/RULES.md, section 14)."""
import os
import pathlib
import random
import sys

sys.path.insert(0, str(pathlib.Path(__file__).resolve().parents[2] / 'tools'))
import identify

NAME = bytes.fromhex('005000C534127856')


def block(words, name=bytes(8)):
    """A block of zeros but for these words and the name's bytes."""
    data = bytearray(identify.SIZE)
    for number, value in words.items():
        data[2 * number:2 * number + 2] = value.to_bytes(2, 'little')
    data[216:224] = name
    return bytes(data)


def changed(data):
    """Two letters of the serial number are others than the checksum says."""
    return data[:24] + bytes((data[24] ^ 0x01, data[25] ^ 0x02)) + data[26:]


def any_blocks(count):
    """Drives with any words 53, 80, 87 and 88, always the same ones, all with a checksum and one in nine with a wrong one."""
    numbers = random.Random(53)
    for place in range(count):
        words = {number: numbers.getrandbits(16) & numbers.getrandbits(16) for number in (53, 80, 87, 88)}
        data = identify.closed(block(words, numbers.choice((NAME, bytes(8)))))
        yield changed(data) if place % 9 == 4 else data


INPUTS = {
    'none': [],
    'one': [block({})],
    # Each mode alone and with all below it, with bit 2 of word 53 and without; bit 7 and the chosen mode tell nothing.
    'modes': [block({53: gate, 88: bits}) for gate in (0x0004, 0x0003) for mode in range(8) for bits in (1 << mode, (2 << mode) - 1, 0x4000)],
    # Each version alone and with all below it; bits 0 and 15 tell nothing.
    'versions': [block({80: bits}) for version in range(16) for bits in (1 << version, (2 << version) - 1, 0x8001 | 1 << version)],
    'no_versions': [block({80: bits}) for bits in (0x0000, 0xFFFF, 0x0001, 0x8000, 0x8001, 0xFFFE, 0x7FFF)],
    'names': [block({87: word}, name) for word in (0x0000, 0x4100, 0x7FFF, 0x4000, 0xC100, 0x8100, 0x0100) for name in (NAME, bytes(8))],
    'damaged': [identify.closed(block({80: 1 << 8})), changed(identify.closed(block({80: 1 << 7}))), changed(block({80: 1 << 6}))],
    'only_damaged': [changed(identify.closed(block({80: 1 << version}))) for version in range(4)],
    'any_blocks': any_blocks(64),
    'thousands': any_blocks(3000),
}


def main():
    for name, blocks in INPUTS.items():
        with open(os.path.join(sys.argv[1], name + '.in'), 'wb') as file:
            file.write(b''.join(blocks))


main()
