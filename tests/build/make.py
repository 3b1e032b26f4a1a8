"""Lines for the program build, many and seeded: python3 make.py FOLDER writes NAME.in for each kind. `orders` are orders that a command
makes, in any spelling; `changed` are such with a field or two changed to any number; `damaged` are lines of which letters are changed,
lost, doubled or put in, and that are orders now and then; `mixed` has all of them with comments, empty lines and long lines between."""
import pathlib
import random
import sys

WIDTHS = {"length": 32, "auxiliary": 32, "features": 16, "count": 16, "lba_low": 16, "lba_mid": 16, "lba_high": 16,
          "quiet_seconds": 16, "sectors_per_block": 16, "device": 8, "command": 8, "protocol": 8, "ck_cond": 8, "extend": 8,
          "direction": 8}
WAYS = {0: (0,), 1: (0,), 3: (0,), 8: (0,), 9: (0,), 4: (1,), 10: (1,), 5: (2,), 11: (2,), 6: (1, 2)}


def an_order(seeded):
    """The fields of an order that some command makes."""
    order = dict.fromkeys(WIDTHS, 0)
    order["protocol"] = seeded.choice(list(WAYS))
    order["direction"] = seeded.choice(WAYS[order["protocol"]])
    order["quiet_seconds"] = seeded.choice((0, 2, 6, 14))
    order["sectors_per_block"] = 1
    if order["protocol"] < 2:
        return order
    order["extend"], order["ck_cond"] = seeded.randrange(2), seeded.randrange(2)
    for register in ("features", "count", "lba_low", "lba_mid", "lba_high"):
        order[register] = seeded.randrange(1 << seeded.choice((1, 8, 16)[:2 + order["extend"]]))
    order["device"], order["command"] = seeded.randrange(256), seeded.randrange(256)
    order["sectors_per_block"] = 1 << seeded.randrange(8)
    if order["direction"]:
        told = [512 * order["count"], order["count"], 512 * order["features"], order["features"], seeded.randrange(1 << 32)]
        order["length"] = seeded.choice(told) or 1
    return order


def changed(seeded, order):
    for _ in range(seeded.randrange(1, 3)):
        field = seeded.choice(list(WIDTHS))
        order[field] = seeded.choice((seeded.randrange(20), 1 << seeded.randrange(17), seeded.randrange(1 << WIDTHS[field])))
    return order


def number(seeded, value):
    digits = seeded.choice(("%d", "%d", "0x%x", "0x%X", "0x%02x", "%03d")) % value
    return digits if seeded.randrange(50) else digits.replace("0x", "0x00")


def line(seeded, order):
    """The order as words, most often without the fields that are zero."""
    words = []
    for field, value in order.items():
        if not value and seeded.randrange(4):
            continue
        shown = number(seeded, value)
        if field == "direction" and value < 3 and seeded.randrange(4):
            shown = ("none", "from", "to")[value]
        words.append("%s=%s" % (field, shown))
    if seeded.randrange(2):
        seeded.shuffle(words)
    gap = seeded.choice((" ", " ", " ", "  ", "\t", " \t "))
    return (gap.join(words) + seeded.choice(("", "", "", " ", "\t"))).encode()


def damaged(seeded, text):
    """A few letters changed, lost, doubled or put in; no line is divided."""
    some = b"=x0 19af_-+.\t\r#\0\x7f\x80\xff,;\"'\\ABG" + text[:1]
    for _ in range(seeded.randrange(1, 4)):
        at = seeded.randrange(len(text) + 1)
        put = bytes([seeded.choice(some)])
        text = seeded.choice((text[:at] + put + text[at:], text[:at] + put + text[at + 1:], text[:at] + text[at + 1:],
                              text[:at] + text[at:at + 1] + text[at:], text + b" " + text[:at]))
    return text


def between(seeded):
    return seeded.choice((b"", b" ", b"\t \t", b"# " + line(seeded, an_order(seeded)), b"#", b"protocol=3 " * seeded.randrange(900)))


def kinds(seeded):
    yield "orders", [line(seeded, an_order(seeded)) for _ in range(4000)]
    yield "changed", [line(seeded, changed(seeded, an_order(seeded))) for _ in range(4000)]
    yield "damaged", [damaged(seeded, line(seeded, an_order(seeded))) for _ in range(8000)]
    yield "mixed", [seeded.choice((between, lambda s: line(s, an_order(s)), lambda s: line(s, changed(s, an_order(s))),
                                   lambda s: damaged(s, line(s, an_order(s)))))(seeded) for _ in range(4000)]


folder = pathlib.Path(sys.argv[1])
for name, lines in kinds(random.Random(14)):
    (folder / (name + ".in")).write_bytes(b"".join(one + b"\n" for one in lines))
