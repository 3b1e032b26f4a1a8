#!/usr/bin/env python3
"""foreign.py DIR: writes captures of other makers' bridges into DIR, FORM.FIELDS.DRIVE.capture each, of the real drives' IDENTIFY
blocks in data/identify. FIELDS is `all`, or the one page that stands beside 89h (`standard` is tag 01h), or `89` for that page alone.
`foreign.py --like FOLDER` holds each form against what was taken of the makers' own code (`take`): of the block that is shown there it
has to make the same bytes. Nothing of the board is used.

The forms, each from published source:

libata      Linux 6.1, drivers/ata/libata-scsi.c: ata_scsiop_inq_std, ata_scsiop_inq_00, ata_scsiop_inq_80, ata_scsiop_inq_83 and
            ata_scsiop_inq_89; texts are copied by ata_id_string (drivers/ata/libata-core.c), which turns words and leaves zero bytes
            as they are; a name is shown where ata_id_has_wwn (include/linux/ata.h) finds word 87 & C100h to be 4100h.
scsi_debug  Linux 6.1, drivers/scsi/scsi_debug.c: resp_inquiry, inquiry_vpd_83 and vpd89_data, with the options that the module has
            by itself, host 0, target 0, logical unit 0. It invents one drive; here its page 89h shows the real drive's block, so that
            there is a drive to hide.
qemu        QEMU 7.2, hw/scsi/scsi-disk.c: scsi_disk_emulate_inquiry and scsi_disk_emulate_vpd_page, of a scsi-hd whose properties
            vendor, product, ver, serial, device_id and wwn are those of the drive, and port_wwn and port_index one port's. It has no
            page 89h, so `all` has none either; beside its other pages here stands libata's.
"""
import os
import sys

HERE = os.path.dirname(os.path.abspath(__file__))
sys.path.insert(0, HERE)
from captures import TAGS, capture, descriptor, drives, field, identify, page83, page89  # noqa: E402

PORT_WWN = bytes.fromhex("5000c50000000001")


def listed(codes):
    """Page 00h: type, code, two length bytes, the codes."""
    return bytes([0x00, 0x00, 0x00, len(codes)]) + bytes(codes)


def says_name(block):
    return identify.word(block, 87) & 0xC100 == 0x4100


class Libata:
    @staticmethod
    def standard(block):
        removable = 0x80 if identify.word(block, 0) & 0x80 else 0x00
        revision = identify.turned(block, (25, 26))
        if revision == b"    ":
            revision = identify.turned(block, (23, 24))
        if revision[0] in b"\0 ":
            revision = b"n/a "
        head = bytes([0x00, removable, 0x05, 0x02, 95 - 4, 0x00, 0x00, 0x02])
        text = b"ATA     " + identify.turned(block, identify.MODEL)[:16] + revision
        versions = bytes.fromhex("006003200300")
        return (head + text).ljust(58, b"\0") + versions.ljust(96 - 58, b"\0")

    @staticmethod
    def list(_block):
        return listed(bytes.fromhex("00808389b0b1b2b9"))

    @staticmethod
    def serial(block):
        return bytes.fromhex("00800014") + identify.turned(block, identify.SERIAL)

    @staticmethod
    def name(block):
        serial = identify.turned(block, identify.SERIAL)
        told = [descriptor(b"\x02\x00", serial),
                descriptor(b"\x02\x01", b"ATA     " + identify.turned(block, identify.MODEL) + serial)]
        if says_name(block):
            told.append(descriptor(b"\x01\x03", identify.name(block)))
        return page83(b"".join(told))

    @staticmethod
    def information(block):
        signature = bytearray(20)
        signature[0], signature[1], signature[2], signature[4], signature[12] = 0x34, 0x80, 0x40, 0x01, 0x01
        return page89(b"linux   libata          3.00", bytes(signature), block)


class ScsiDebug:
    @staticmethod
    def standard(_block):
        head = bytes([0x00, 0x00, 0x07, 0x02, 96 - 5, 0x00, 0x10, 0x0A])
        text = b"Linux   scsi_debug      0191" + b"20210520"
        versions = bytes.fromhex("00c005c006002100")
        return (head + text).ljust(58, b"\0") + versions.ljust(96 - 58, b"\0")

    @staticmethod
    def list(_block):
        return listed(bytes.fromhex("008083848586878889b0b1b2"))

    @staticmethod
    def serial(_block):
        return bytes.fromhex("00800004") + b"2000"

    @staticmethod
    def name(_block):
        number, target = 2000, 2000 - 3
        return page83(b"".join([
            descriptor(b"\x02\x01", b"Linux   " + b"scsi_debug      " + b"2000"),
            descriptor(b"\x01\x03", (0x3333333000000000 + number).to_bytes(8, "big")),
            descriptor(b"\x61\x94", bytes([0, 0, 0, 1])),
            descriptor(b"\x61\x93", (0x3222222000000000 + target + 1).to_bytes(8, "big")),
            descriptor(b"\x61\x95", bytes([0, 0, 1, 0])),
            descriptor(b"\x61\xa3", (0x3222222000000000 + target).to_bytes(8, "big")),
            descriptor(b"\x63\xa8", b"naa.32222220" + b"%08X" % target + bytes(4)),
        ]))

    @staticmethod
    def information(block):
        signature = bytes([0x34, 0x00, 0x00, 0x00, 0x01]) + bytes(7) + b"\x01"
        return page89(b"linux   SAT scsi_debug  1234", signature, block)


class Qemu:
    @staticmethod
    def text(block, words):
        """A property's text has no zero bytes and no spaces around it."""
        return identify.spaced(identify.turned(block, words)).strip()

    @classmethod
    def standard(cls, block):
        removable = 0x80 if identify.word(block, 0) & 0x80 else 0x00
        head = bytes([0x00, removable, 0x05, 0x12, 36 - 5, 0x00, 0x00, 0x12])
        product = cls.text(block, identify.MODEL)[:16].ljust(16)
        return head + b"ATA".ljust(8) + product + cls.text(block, identify.FIRMWARE)[:4].ljust(4, b"\0")

    @staticmethod
    def list(_block):
        return listed(bytes.fromhex("008083b0b1b2"))

    @classmethod
    def serial(cls, block):
        serial = cls.text(block, identify.SERIAL)
        return bytes([0x00, 0x80, 0x00, len(serial)]) + serial

    @classmethod
    def name(cls, block):
        told = [descriptor(b"\x02\x00", cls.text(block, identify.SERIAL))]
        if says_name(block):
            told.append(descriptor(b"\x01\x03", identify.name(block)))
        told.append(descriptor(b"\x61\x93", PORT_WWN))
        told.append(descriptor(b"\x61\x94", bytes([0, 0, 0, 1])))
        return page83(b"".join(told))

    information = Libata.information


FORMS = {"libata": Libata, "scsi_debug": ScsiDebug, "qemu": Qemu}


def of_drive(form, block):
    """What stands in each capture of a drive."""
    maker = FORMS[form]
    pages = {"00": maker.list(block), "standard": maker.standard(block), "80": maker.serial(block), "83": maker.name(block)}
    information = field(TAGS["89"], maker.information(block))
    yield "all", capture(pages) + (b"" if form == "qemu" else information)
    for tag, content in pages.items():
        yield tag, field(TAGS[tag], content) + information
    if form != "qemu":
        yield "89", information


def fields_of(content):
    """The fields of a capture that is whole."""
    names = {tag: name for name, tag in TAGS.items()}
    found, at = {}, 0
    while at < len(content):
        end = at + 3 + int.from_bytes(content[at + 1:at + 3], "big")
        found[names[content[at]]] = content[at + 3:end]
        at = end
    return found


def like(folder):
    """Says of each capture that was taken whether it is what is made here of the block; of QEMU's, which shows none, of libata's."""
    taken = {}
    for name in ("libata_named", "libata_unnamed", "scsi_debug", "qemu"):
        with open(os.path.join(folder, name + ".capture"), "rb") as file:
            taken[name] = file.read()
    failed = 0
    for name, content in taken.items():
        shown = fields_of(taken["libata_named"] if name == "qemu" else content)["89"][60:]
        form = "libata" if name.startswith("libata") else name
        same = dict(of_drive(form, shown))["all"] == content
        print("%s: %s" % (name, "the same bytes" if same else "other bytes are made here"))
        failed += not same
    return 1 if failed else 0


def main():
    if sys.argv[1] == "--like":
        sys.exit(like(sys.argv[2]))
    for drive, block in drives():
        for form in FORMS:
            for fields, content in of_drive(form, block):
                with open(os.path.join(sys.argv[1], "%s.%s.%s.capture" % (form, fields, drive)), "wb") as file:
                    file.write(content)


if __name__ == "__main__":
    main()
