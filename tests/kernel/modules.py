#!/usr/bin/env python3
"""modules.py FOLDER NAME..: the files of these kernel modules and of all that they depend on, in the order in which they can be put in.
FOLDER is that of an unpacked kernel package, which has no list of dependencies: each module tells its own."""
import pathlib
import re
import sys


def main():
    files = {file.stem.replace("-", "_"): file for file in pathlib.Path(sys.argv[1]).rglob("*.ko")}
    order = []

    def put_in(name):
        file = files.get(name.replace("-", "_"))
        if file is None:
            sys.exit("modules.py: no module " + name)
        if file not in order:
            for other in re.findall(rb"\0depends=([^\0]*)\0", file.read_bytes())[0].decode().split(","):
                if other:
                    put_in(other)
            order.append(file)

    for name in sys.argv[2:]:
        put_in(name)
    print(*order, sep="\n")


main()
