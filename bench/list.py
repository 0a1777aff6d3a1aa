#!/usr/bin/env python3
"""Times the program's `list` on large files beside `objdump -x`.

    bench/list.py [PROGRAM]

PROGRAM is the proved and built program, crates/jakstab_main/out/jakstab_main where none is given (`./jakstab` builds it).
The files are made anew in a folder of their own, which goes at the end: one segment of 1 and of 16 MB, which is to take
at most 10 nanoseconds a byte, and 6,000 and 60,000 imports, each with its symbol and its relocation, which is to take at
most the time of objdump on the same file. Both are to be linear: what is larger takes at most 1.25 times as much a byte
or an import.
"""
import os
import shutil
import struct
import subprocess
import sys
import tempfile

sys.path.insert(0, os.path.dirname(os.path.abspath(__file__)))
from decode import BASE, elf, lines, seconds

TABLES = 0x09000000
MOST_OF_A_BYTE, MOST_OF_OBJDUMP, MOST_GROWTH = 10, 1, 1.25


def program_header(kind, offset, at, size, flags):
    return struct.pack("<IIIIIIII", kind, offset, at, at, size, size, flags, 1)


def imports(count):
    """A file that imports so many names, each by a relocation of its own."""
    code = b"\xf4"
    names = [b"name%06d" % i for i in range(count)]
    slots, rels, symbols, strings = 4 * count, 8 * count, 16 * (count + 1), 1 + 11 * count
    rel_at, symbol_at = TABLES + slots, TABLES + slots + rels
    string_at = symbol_at + symbols
    tables = bytes(slots)
    tables += b"".join(struct.pack("<II", TABLES + 4 * i, (i + 1) << 8 | 7) for i in range(count))
    tables += bytes(16) + b"".join(struct.pack("<IIIBBH", 1 + 11 * i, 0, 0, 0x12, 0, 0) for i in range(count))
    tables += b"\0" + b"".join(name + b"\0" for name in names)
    dynamic = [(23, rel_at), (2, rels), (20, 17), (6, symbol_at), (11, 16), (5, string_at), (10, strings), (0, 0)]
    tables += b"".join(struct.pack("<II", tag, value) for tag, value in dynamic)
    header = b"\x7fELF\x01\x01\x01" + bytes(9)
    header += struct.pack("<HHIIIIIHHHHHH", 2, 3, 1, BASE, 52, 0, 0, 52, 32, 3, 0, 0, 0)
    code_at = 52 + 3 * 32
    header += program_header(1, code_at, BASE, len(code), 5)
    header += program_header(1, code_at + len(code), TABLES, len(tables), 6)
    header += program_header(2, code_at + len(code) + len(tables) - 64, TABLES + len(tables) - 64, 64, 6)
    return header + code + tables


def timed(name, file, program, folder, pin):
    image, ours = os.path.join(folder, "image"), os.path.join(folder, "ours")
    with open(image, "wb") as out:
        out.write(file)
    spent = seconds([program, "list", image], ours, pin)
    if lines(ours)[-2] != b"end":
        sys.exit(f"{name}: {lines(ours)[-2]} in place of end")
    return spent, seconds(["objdump", "-x", image], ours, pin)


def main():
    root = os.path.dirname(os.path.dirname(os.path.abspath(__file__)))
    built = os.path.join(root, "crates", "jakstab_main", "out", "jakstab_main")
    program = os.path.abspath(sys.argv[1]) if len(sys.argv) > 1 else built
    pin = ["taskset", "-c", str(max(os.sched_getaffinity(0)))] if shutil.which("taskset") else []
    good = True
    with tempfile.TemporaryDirectory() as folder:
        each = []
        for size in (1 << 20, 16 * 1000 * 1000):
            spent, theirs = timed("bytes", elf(bytes(size)), program, folder, pin)
            each.append(spent / size * 1e9)
            print(f"{size:9} bytes   {spent * 1e3:7.1f} ms, {each[-1]:5.2f} ns a byte   objdump -x {theirs * 1e3:7.1f} ms")
        good = good and max(each) <= MOST_OF_A_BYTE and each[1] <= each[0] * MOST_GROWTH
        each = []
        for count in (6_000, 60_000):
            spent, theirs = timed("imports", imports(count), program, folder, pin)
            each.append(spent / count * 1e6)
            print(f"{count:9} imports {spent * 1e3:7.1f} ms, {each[-1]:5.2f} us an import   objdump -x {theirs * 1e3:7.1f} ms, ratio {spent / theirs:5.2f}")
            good = good and spent <= theirs * MOST_OF_OBJDUMP
        good = good and each[1] <= each[0] * MOST_GROWTH
    sys.exit(0 if good else 1)


if __name__ == "__main__":
    main()
