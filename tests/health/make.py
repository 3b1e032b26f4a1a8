#!/usr/bin/env python3
"""Writes N register images, the same ones each time: make.py N

Each of the four bytes that decide (error, LBA mid, LBA high, status) goes through its own short list. No two of the lists'
lengths have a common divisor, so 1260 images have every combination; the bytes that do not decide vary as well.
"""
import sys

ERROR = (0x00, 0x04, 0x40, 0x84, 0xFF)
MID = (0x4F, 0xF4, 0x4F, 0xF4, 0x00, 0x4F, 0xF4)
HIGH = (0xC2, 0x2C, 0xC2, 0x00)
STATUS = (0x50, 0x50, 0x51, 0x70, 0x50, 0x71, 0x50, 0xDE, 0x50)
out = bytearray()
for i in range(int(sys.argv[1])):
    other = (37 * i + 11) % 256
    out += bytes((ERROR[i % 5], other, other ^ 0x5A, other ^ 0x33, other ^ 0xC3, other ^ 0x4F, MID[i % 7], other ^ 0xC2,
                  HIGH[i % 4], other | 0xA0, STATUS[i % 9]))
sys.stdout.buffer.write(out)
