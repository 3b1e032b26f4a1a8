#!/usr/bin/env python3
"""make.py DIR: writes inputs for the program `inquiries` into DIR, one file NAME.in each: blocks of which every part that a
page shows is tried (docs/RULES.md, section 5)."""
import itertools
import os
import random
import sys

BLOCK = 512
SERIAL, FIRMWARE, MODEL, WORD_87, NAME = range(20, 40), range(46, 54), range(54, 94), range(174, 176), range(216, 224)


def changed(block, at, value):
    other = bytearray(block)
    other[at] = value
    return bytes(other)


def put(block, places, data):
    return block[:places.start] + data + block[places.stop:]


def says(block, word):
    """The block with this word 87; 4100h says that there is a name."""
    return put(block, WORD_87, word.to_bytes(2, 'little'))


def any_bytes(count, all_named):
    """Blocks of any bytes, always the same; unless all are named, every other one has no name."""
    numbers = random.Random(83)
    blocks = []
    for place in range(count):
        block = says(numbers.randbytes(BLOCK), 0x4100)
        if not all_named and place % 2:
            block = put(block, NAME, bytes(len(NAME)))
        blocks.append(block)
    return blocks


ZEROS = bytes(BLOCK)
RISING = bytes(at % 251 + 1 for at in range(BLOCK))
UNNAMED = says(put(RISING, NAME, bytes(len(NAME))), 0x4100)

INPUTS = {
    'none': [],
    'zeros': [ZEROS],
    'unlike_bytes': [RISING, says(RISING, 0x4100), UNNAMED],
    'first_byte': [changed(UNNAMED, 0, 1 << bit) for bit in range(8)] + [changed(UNNAMED, 0, 0xFF ^ 0x80)],
    # One bit of the name is enough, and the bytes beside it are no part of it.
    'names': [changed(UNNAMED, at, 1 << bit) for at in NAME for bit in range(8)],
    'beside_the_name': [changed(says(ZEROS, 0x4100), at, 0xFF) for at in (NAME.start - 1, NAME.stop)],
    # What bits 15:14 and bit 8 of word 87 can say, the other bits as zeros or ones; then the two bytes each in the other's place.
    'word_87': [says(RISING, bits | rest) for bits in range(0, 0x10000, 0x100) if not bits & 0x3E00 for rest in (0x0000, 0x3EFF)]
    + [says(RISING, 0x0041)],
    'any_words_87': [says(RISING, word) for word in random.Random(87).sample(range(0x10000), 64)],
    'beside_word_87': [put(says(RISING, said), range(2 * word, 2 * word + 2), data)
                       for said in (0x4100, 0x0000) for word in (84, 85, 86, 88) for data in (b'\x00\x41', b'\x41\x00')],
    # A zero byte, and then a space, in every place of the texts.
    'zeros_in_serials': [changed(UNNAMED, at, value) for at in SERIAL for value in (0x00, 0x20)],
    'zeros_in_models': [changed(UNNAMED, at, 0x00) for at in MODEL],
    'spaces_in_models': [changed(UNNAMED, at, 0x20) for at in MODEL],
    # Letters, spaces and zero bytes in every place of words 25-26, and in each place of words 23-24 where those are spaces.
    'revisions': [put(UNNAMED, FIRMWARE, b'badc' + bytes(rest)) for rest in itertools.product(b'f\0 ', repeat=4) if rest.count(b'f'[0]) < 2],
    'first_choice_blank': [put(UNNAMED, FIRMWARE, changed(b'badc    ', at, value)) for at in range(4) for value in (0x00, 0x20, 0x7A)],
    'any_bytes': any_bytes(64, all_named=True),
    'any_bytes_some_unnamed': any_bytes(63, all_named=False),
}


def main():
    for name, blocks in INPUTS.items():
        with open(os.path.join(sys.argv[1], name + '.in'), 'wb') as file:
            file.write(b''.join(blocks))


main()
