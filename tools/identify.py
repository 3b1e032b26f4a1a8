"""The IDENTIFY block as section 5 of docs/RULES.md has it, for the scripts that say what a program must print: words, the two ways
of reading a text, the name, the checksum, and when two blocks are the same drive. Nothing of the board is used. The second program (tests/second)
and the C and Rust code of tests/ and bench/ read blocks on their own, and stay so: readings that share nothing judge each other."""

SIZE = 512
SERIAL, FIRMWARE, MODEL, NAME = (10, 19), (23, 26), (27, 46), (108, 111)


def blocks(data):
    """The blocks that stand one after the other; the last may be short."""
    return [data[at:at + SIZE] for at in range(0, len(data), SIZE)]


def word(block, number):
    """Byte 2w is bits 7:0 of word w, byte 2w+1 bits 15:8."""
    return block[2 * number] | block[2 * number + 1] << 8


def turned(block, words):
    """The bytes of a field, first and last word, with the two bytes of each word in reading order."""
    first, last = words
    return b"".join(word(block, number).to_bytes(2, "big") for number in range(first, last + 1))


def spaced(text):
    """Each zero byte is made a space."""
    return text.replace(b"\0", b" ")


def model(block):
    return spaced(turned(block, MODEL))


def serial(block):
    return spaced(turned(block, SERIAL))


def firmware(block):
    return spaced(turned(block, FIRMWARE))


def name(block):
    """The eight bytes of the world wide name, the highest first."""
    return turned(block, NAME)


def carries_name(block):
    """Word 87 counts where bits 15:14 are 01b; its bit 8 says that there is a name; and a name of zeros is none."""
    said = word(block, 87)
    return said >> 14 == 0b01 and bool(said & 1 << 8) and any(name(block))


def damaged(block):
    """A5h in byte 510 says that the bytes sum to a multiple of 256, and they do not."""
    return len(block) == SIZE and word(block, 255) & 0xFF == 0xA5 and sum(block) % 256 != 0


def closed(block):
    """The block with A5h and the checksum that goes with it."""
    front = bytes(block[:SIZE - 2]) + b"\xa5"
    return front + bytes([-sum(front) % 256])


def same_drive(one, other):
    """By the names where both carry one; by model and serial number where neither does; a name and none are two drives."""
    if carries_name(one) != carries_name(other):
        return False
    if carries_name(one):
        return name(one) == name(other)
    return (model(one), serial(one)) == (model(other), serial(other))
