"""Streams for the program feed, divided in many ways, with what it has to print of each: python3 streams.py BLOCKS FOLDER writes
NAME.in and NAME.out for each of them. The rules are those of docs/RULES.md, section 12, and for the name section 5."""
import pathlib
import random
import sys

sys.path.insert(0, str(pathlib.Path(__file__).resolve().parents[2] / "tools"))
import identify


def run(data):
    return len(data).to_bytes(2, "big") + data


def shown(byte):
    if byte == 0x5C:
        return "\\\\"
    return chr(byte) if 0x20 <= byte <= 0x7E else f"\\x{byte:02x}"


def name_line(block):
    if identify.carries_name(block):
        return "name " + identify.name(block).hex()
    model, serial = ("".join(map(shown, text)) for text in (identify.model(block), identify.serial(block)))
    return f"text [{model}] [{serial}]"


def expected(runs):
    stream = b"".join(runs)
    lines = []
    had = 0
    for number, data in enumerate(runs, 1):
        if had < 512 <= had + len(data):
            lines.append(f"complete in run {number} after {512 - had} bytes of it")
        had += len(data)
    if had < 512:
        return f"not complete\nused {had}\nno block\n"
    return "\n".join(lines + ["used 512", name_line(stream[:512])]) + "\n"


def divided(stream, size):
    return [stream[i : i + size] for i in range(0, len(stream), size)]


def cases(blocks):
    for name, block in blocks:
        for size in (1, 2, 3, 7, 100, 511, 512, 513):
            yield f"{name}-by-{size}", divided(block + b"\x5a" * 40, size)
    name, block = blocks[0]
    yield "nothing", []
    yield "only-empty-runs", [b"", b"", b""]
    yield "511-bytes", [block[:511]]
    yield "511-and-none", [block[:511], b""]
    yield "empty-runs-between", [b"", block[:200], b"", b"", block[200:], b"", b"more"]
    yield "a-second-block", [block, blocks[-1][1]]
    yield "one-long-run", [block + bytes(range(256)) * 100]
    unnamed = bytearray(block)
    unnamed[216:224] = bytes(8)
    whole = identify.closed(unnamed)
    yield "no-name", [whole[:300], whole[300:]]
    junk = bytearray(block)
    junk[175] &= 0xFE
    yield "no-name-but-factory-text", [identify.closed(junk)]
    every = bytes(range(256)) + bytes(44)
    for i in range(0, 300, 60):
        unnamed[20:40] = every[i : i + 20]
        unnamed[54:94] = every[i + 20 : i + 60]
        yield f"every-byte-{i}", [identify.closed(unnamed)]
    seeded = random.Random(6)
    for i in range(40):
        stream = seeded.choice(blocks)[1] + seeded.randbytes(seeded.randrange(200))
        stream = stream[: seeded.randrange(400, len(stream) + 1)]
        runs = []
        while stream:
            size = seeded.choice((0, 1, 2, seeded.randrange(300)))
            runs.append(stream[:size])
            stream = stream[size:]
        yield f"random-{i}", runs


folder = pathlib.Path(sys.argv[2])
files = sorted(pathlib.Path(sys.argv[1]).glob("*.bin"))
for name, runs in cases([(file.stem, file.read_bytes()) for file in files]):
    (folder / f"{name}.in").write_bytes(b"".join(map(run, runs)))
    (folder / f"{name}.out").write_text(expected(runs), encoding="ascii")
