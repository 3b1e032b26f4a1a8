"""Blocks whose texts hold every byte there is, for the program labels, and what it has to print of them: python3 texts.py FOLDER writes
texts.in and texts.out. A byte that is not printable is shown as \\x and two hexadecimal digits, a backslash as two; a zero byte is a
space before it is shown."""
import pathlib
import sys


def shown(text):
    return "".join(
        "\\\\" if byte == 0x5C else chr(byte) if 0x20 <= byte <= 0x7E else f"\\x{byte:02x}" for byte in text.replace(b"\0", b" ")
    )


def turned(text):
    return b"".join(text[i + 1 : i + 2] + text[i : i + 1] for i in range(0, len(text), 2))


def block(model, serial, firmware):
    data = bytearray(512)
    data[20:40] = turned(serial)
    data[46:54] = turned(firmware)
    data[54:94] = turned(model)
    return bytes(data)


def listed(place, model, serial, firmware):
    return f"{place} [{shown(model)}] [{shown(serial)}] [{shown(firmware)}] no name drive {place + 1}\n"


# Each byte comes up in the long texts, and in the firmware's; no two drives have the same long texts.
every = bytes(range(256))
longs = every * 8
drives = [(longs[60 * i :][:40], longs[60 * i + 40 :][:20], every[8 * i :][:8]) for i in range(32)]
folder = pathlib.Path(sys.argv[1])
(folder / "texts.in").write_bytes(b"".join(block(*texts) for texts in drives))
lines = [listed(i, *texts) for i, texts in enumerate(drives)]
(folder / "texts.out").write_text("".join(lines), encoding="ascii")
# One block whose output stands in the suite, written by hand.
by_hand = b"\x1b[2J\x1b]0;drive\x07\nSECOND LINE".ljust(40), b"SN\n\x1b\\7\x7f\x80\xff".ljust(20), b"\x1b]2;\nV1\0"
(folder / "hand.in").write_bytes(block(*by_hand))
