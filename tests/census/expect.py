#!/usr/bin/env python3
"""What the program `census` must print for the IDENTIFY blocks on standard input, from docs/RULES.md and with nothing of the board:
how many blocks were counted, how many were left out because they are damaged, and how many are in each class of the three groupings."""
import collections
import pathlib
import sys

sys.path.insert(0, str(pathlib.Path(__file__).resolve().parents[2] / 'tools'))
import identify

MODES = range(0, 7)
VERSIONS = range(1, 15)


def highest(word, bits):
    """The highest of these bits that is one."""
    return max((bit for bit in bits if word >> bit & 1), default='none')


def mode(block):
    """Word 88 tells the Ultra DMA modes where bit 2 of word 53 is one."""
    return highest(identify.word(block, 88), MODES) if identify.word(block, 53) & 0x0004 else 'none'


def version(block):
    """Word 80 tells the major versions, but for FFFFh."""
    word = identify.word(block, 80)
    return 'none' if word == 0xFFFF else highest(word, VERSIONS)


def main():
    data = sys.stdin.buffer.read()
    if len(data) % identify.SIZE:
        sys.exit('expect.py: no whole number of blocks')
    blocks = identify.blocks(data)
    taken = [block for block in blocks if not identify.damaged(block)]
    forms = collections.Counter('wwn' if identify.carries_name(block) else 'text' for block in taken)
    modes = collections.Counter(map(mode, taken))
    versions = collections.Counter(map(version, taken))
    print('blocks', len(taken))
    print('damaged', len(blocks) - len(taken))
    for form in ('wwn', 'text'):
        print(form, forms[form])
    for name in (*MODES, 'none'):
        print('udma', name, modes[name])
    for name in (*VERSIONS, 'none'):
        print('version', name, versions[name])


main()
