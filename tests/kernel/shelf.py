#!/usr/bin/env python3
"""shelf.py DATA FOLDER: fills a shelf. For each bay FOLDER gets the IDENTIFY block of its drive (00.bin), the drive's description as
tests/clients has it (00) and an empty disk (00.disk); and a list, `bays`, of every bay with the group that it belongs to. DATA is the
folder of real blocks, from which the made ones differ in texts and name alone. Texts and names are written here once more from
docs/RULES.md 5 and not by tools/identify.py, which reads them: what shares nothing can be judged."""
import pathlib
import sys

DISK = 16 << 20
SERIAL, MODEL, NAME = (10, 20), (27, 40), 108
NAME_IS_THERE = 87, 0x4100


def put_word(block, number, value):
    block[2 * number:2 * number + 2] = value.to_bytes(2, "little")


def put_text(block, place, text, end):
    """A text fills its field up with the bytes that it ends in."""
    first, size = place
    text = text.encode().ljust(size, end)
    for at in range(0, size, 2):
        put_word(block, first + at // 2, int.from_bytes(text[at:at + 2], "big"))


def put_name(block, name):
    put_word(block, *NAME_IS_THERE)
    for at in range(4):
        put_word(block, NAME + at, name >> (48 - 16 * at) & 0xFFFF)


def closed(block):
    """The last byte makes the sum of all 0, where the one before it says so."""
    if block[510] == 0xA5:
        block[511] = -sum(block[:511]) % 256
    return bytes(block)


def changed(real, serial, model=None, name=None, end=b" "):
    block = bytearray(real)
    put_text(block, SERIAL, serial, end)
    if model is not None:
        put_text(block, MODEL, model, end)
    if name is not None:
        put_name(block, name)
    return closed(block)


def shelf(real):
    """Every bay: its group, its block, and what else the drive's description says."""
    toshiba, western = real["TOSHIBA_MK1651GSY--38IGT0G5T"], real["WDC_WD2500JS-75NCB3--10.02E04"]
    fujitsu = real["FUJITSU_MHY2120BH--0084000D"]
    maxtor = real["Maxtor_96147H8--BAC51KJ0"], real["Maxtor_96147H8--BAC51KJ0--2"]
    for at in range(8):
        yield "eight-with-names", changed(toshiba, "38IGT0G%dT" % at, name=0x5000C50012345678 + at), ""
    for at in range(8):
        yield "eight-without-names", changed(western, "     WD-WCANKH57300%d" % at), ""
    for port in 1, 2:
        yield "one-with-name-in-two-bays", fujitsu, "port %d\naddress 500143801234567%d\n" % (port, port)
    for port, block in enumerate(maxtor, 1):
        yield "one-without-name-in-two-bays", block, "port %d\naddress 500143801234568%d\n" % (port, port)
    for end in b"\0", b" ":
        yield "one-with-zeros-and-spaces", changed(maxtor[0], "N80ZERO", "Maxtor 96147", end=end), ""
    for file in "INTEL_SSDSA2MH080G1GC--045C8820", "SAMSUNG_MP0804H--UE100-14", "ST320410A--3.39":
        yield "others", real[file], ""
    yield "others", toshiba, ""
    yield "others", western, ""
    yield "others", real["ST9160821AS--3.CLH"], "health failing\npower standby\n"


def main():
    data, folder = map(pathlib.Path, sys.argv[1:])
    real = {file.stem: file.read_bytes() for file in data.glob("*.bin")}
    bays = []
    for at, (group, block, more) in enumerate(shelf(real)):
        bay = "%02d" % at
        (folder / (bay + ".bin")).write_bytes(block)
        (folder / bay).write_text("piongseut drive\nidentify %s.bin\n%s" % (bay, more))
        with open(folder / (bay + ".disk"), "wb") as disk:
            disk.truncate(DISK)
        bays.append("%s %s\n" % (bay, group))
    (folder / "bays").write_text("".join(bays))


main()
