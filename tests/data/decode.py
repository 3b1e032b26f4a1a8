#!/usr/bin/env python3
"""Prints of the IDENTIFY blocks on standard input what crates/labels must print of them, from docs/RULES.md and without the board:
the stored output of that program is held against this. A drive's row is its place among the drives met so far, from 1."""
import pathlib
import sys

sys.path.insert(0, str(pathlib.Path(__file__).resolve().parents[2] / "tools"))
import identify


def main():
    met = []
    for place, block in enumerate(identify.blocks(sys.stdin.buffer.read())):
        shown = "name " + identify.name(block).hex() if identify.carries_name(block) else "no name"
        if not any(identify.same_drive(drive, block) for drive in met):
            met.append(block)
        row = 1 + [identify.same_drive(drive, block) for drive in met].index(True)
        texts = identify.model(block), identify.serial(block), identify.firmware(block)
        sys.stdout.buffer.write(b"%d [%s] [%s] [%s] %s drive %d\n" % (place, *texts, shown.encode(), row))


main()
