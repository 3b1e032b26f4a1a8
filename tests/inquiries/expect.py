#!/usr/bin/env python3
"""What the program `inquiries` must print for the IDENTIFY blocks on standard input.

Written from docs/RULES.md, sections 4 to 7, section 5 by tools/identify.py, and from nothing of the board's own. A line is: the block's place, what is asked,
the number, the status, how many bytes are shown, the bytes. What the program lends besides the blocks stands here too: the
translator's texts, a disk's signature, and a packet drive that tells its own standard data. The packet drive's list of pages
cannot be told from the output: with and without 89h in it, it must come to the same page.
"""
import pathlib
import sys

sys.path.insert(0, str(pathlib.Path(__file__).resolve().parents[2] / 'tools'))
import identify

BLOCK = identify.SIZE
TEXTS = b'PIONG   ' + b'SAT BRIDGE      ' + b'4   '
DISK = bytes.fromhex('3400500101' + '00' * 7 + '01' + '00' * 7)
PACKET_STANDARD = bytes.fromhex('058005021F000000') + b'PIONG   ' + b'PACKET DRIVE    ' + b'1.0 '
PACKET_LISTS = ('050000 03 008083', '050000 04 00808389')
WHOLE = 0xFFFF


def standard(block):
    """6.1"""
    removable = block[0] & 0x80
    product = identify.turned(block, identify.MODEL)[:16]
    return bytes((0x00, removable)) + bytes.fromhex('05021F000000') + b'ATA     ' + product + revision(block)


def revision(block):
    """6.1: the firmware's last four letters, or its first four where those are spaces; zero bytes are kept, and are no spaces"""
    letters = identify.turned(block, identify.FIRMWARE)
    return letters[:4] if letters[4:] == b'    ' else letters[4:]


def page_00(block):
    """6.2"""
    return bytes.fromhex('00000004 00808389')


def page_80(block):
    """6.3"""
    return bytes.fromhex('00800014') + identify.serial(block)


def page_83(block):
    """6.4"""
    if identify.carries_name(block):
        return bytes.fromhex('0083000C 01030008') + identify.name(block)
    return bytes.fromhex('00830048 02010044') + b'ATA     ' + identify.model(block) + identify.serial(block)


def page_89(block):
    """6.5, of a drive that is no packet drive"""
    return bytes.fromhex('00890238 00000000') + TEXTS + DISK + bytes.fromhex('EC000000') + block


def packet_page_00(reply):
    """7, of a reply that is usable"""
    codes = sorted(set(reply[4:4 + reply[3]]) | {0x89})
    return bytes((reply[0], 0x00, reply[2], len(codes))) + bytes(codes)


# What is asked of each block, and how many bytes the host takes (4).
ASKED = (
    ('standard', standard, WHOLE),
    ('00h', page_00, WHOLE),
    ('80h', page_80, WHOLE),
    ('83h', page_83, WHOLE),
    ('89h', page_89, WHOLE),
    ('83h', page_83, 5),
)


def line(place, asked, page, allocation):
    """An accepted INQUIRY is number 0, GOOD (2); a page is cut to the allocation length (4)."""
    shown = page[:allocation]
    return '%s %s 0 00 %d %s' % (place, asked, len(shown), shown.hex())


def main():
    data = sys.stdin.buffer.read()
    if len(data) % BLOCK:
        sys.exit('expect.py: no whole number of blocks')
    for place in range(len(data) // BLOCK):
        block = data[BLOCK * place:BLOCK * (place + 1)]
        for asked, page, allocation in ASKED:
            print(line(place, asked, page(block), allocation))
    lists = {packet_page_00(bytes.fromhex(reply)) for reply in PACKET_LISTS}
    if len(lists) != 1:
        sys.exit('expect.py: the two lists of the packet drive come to different pages')
    print(line('packet', '00h', lists.pop(), WHOLE))
    print(line('packet', 'standard', PACKET_STANDARD, WHOLE))


main()
