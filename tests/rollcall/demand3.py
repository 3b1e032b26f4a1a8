#!/usr/bin/env python3
"""The roll a second time, from sections 5 and 11 of docs/RULES.md and with nothing of the board: reads blocks on standard input and
prints what crates/rollcall must print of them. The stored outputs are held against this."""
import pathlib
import sys

sys.path.insert(0, str(pathlib.Path(__file__).resolve().parents[2] / "tools"))
from identify import blocks, carries_name, damaged, same_drive


def main():
    data = sys.stdin.buffer.read()
    if len(data) % 512 or len(data) > 32768:
        print("refused 1")
        return
    run = blocks(data)
    if any(map(damaged, run)):
        print("refused 18")
        return
    drives = []
    lines = []
    for place, block in enumerate(run):
        if not any(same_drive(drive, block) for drive in drives):
            drives.append(block)
        row = 1 + [same_drive(drive, block) for drive in drives].index(True)
        lines.append("%d %d %s" % (place, row, "wwn" if carries_name(block) else "text"))
    print("blocks %d drives %d" % (len(run), len(drives)))
    for line in lines:
        print(line)


main()
