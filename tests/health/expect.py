#!/usr/bin/env python3
"""What the health logger must print for the register images on standard input.

Written from docs/RULES.md and the ATA text of SMART RETURN STATUS, and from nothing of the board's own: the command has EXTEND
zero, so the upper register bytes come back as zero and only the lower ones decide; status bit 0 (ERR) or 5 (DF) is an error.
"""
import sys

images = sys.stdin.buffer.read()
for place in range(len(images) // 11):
    image = images[11 * place:11 * place + 11]
    error, lba_mid, lba_high, status = image[0], image[6], image[8], image[10]
    if status & 0x21:
        said = 'error %02x' % error
    else:
        said = {(0x4F, 0xC2): 'healthy', (0xF4, 0x2C): 'failing'}.get((lba_mid, lba_high), 'unknown')
    print(place, said)
