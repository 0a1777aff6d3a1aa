#!/usr/bin/env python3
"""Times the program's `table` and `check` beside its `recover` of the same images.

    bench/check.py [PROGRAM]

PROGRAM is the proved and built program, crates/jakstab_main/out/jakstab_main where none is given (`./jakstab` builds it).
The files are made anew in a folder of their own, which goes at the end: the kinds of code of `bench/rows.py`, and the
image of `demo 200`, whose last block is followed by a call of the imported function `exit`. What `table` prints is given
to `check`, which is to say yes to it, with all rows and edges. Printed are the times and their ratios; `check` of the
demo's table is to take at most 3 times what `recover` of the image takes.
"""
import os
import shutil
import struct
import sys
import tempfile

sys.path.insert(0, os.path.dirname(os.path.abspath(__file__)))
from decode import BASE, elf, lines
from list import TABLES, program_header
from rows import KINDS, run, table_block

BLOCKS = 200
MOST_OF_RECOVER = 3
STUBS = b'[stub.exit]\nargs = 4\nreply = "never"\n'


def words(*numbers):
    return struct.pack("<%dI" % len(numbers), *numbers)


def demo_tables():
    """The slot of `exit`, its relocation, the symbols, their names, and the dynamic section that tells where these are."""
    symbol = words(1, 0, 0) + bytes([0x12, 0, 0, 0])
    names = b"\0exit\0"
    relocations_at, symbols_at, names_at = TABLES + 4, TABLES + 12, TABLES + 44
    dynamic = words(23, relocations_at, 2, 8, 20, 17, 6, symbols_at, 11, 16, 5, names_at, 10, len(names), 0, 0)
    return bytes(4) + words(TABLES, 1 << 8 | 7) + bytes(16) + symbol + names + dynamic


def demo_image(blocks):
    """The image that `demo` explores, as crates/demo_images/specs/Demo.antt defines it."""
    code = b"".join(map(table_block, range(blocks))) + b"\xff\x15" + words(TABLES) + b"\xf4"
    tables, offset = demo_tables(), 148
    dynamic = len(tables) - 64
    header = b"\x7fELF\x01\x01\x01" + bytes(9)
    header += struct.pack("<HHIIIIIHHHHHH", 2, 3, 1, BASE, 52, 0, 0, 52, 32, 3, 0, 0, 0)
    header += program_header(1, offset, BASE, len(code), 5)
    header += program_header(1, offset + len(code), TABLES, len(tables), 6)
    header += program_header(2, offset + len(code) + dynamic, TABLES + dynamic, 64, 6)
    return header + code + tables


def images():
    """A name, an image, the words of its stub file, and how many locations, edges and rows its exploration has."""
    for name, (pieces, code_of, counts_of) in KINDS.items():
        yield name, elf(code_of(pieces) + b"\xf4"), False, counts_of(pieces)
    counts = 14 * BLOCKS + 2, 18 * BLOCKS + 1, 24 * BLOCKS + 3
    yield f"demo {BLOCKS}", demo_image(BLOCKS), True, counts


def expect(name, line, want):
    if line != want:
        sys.exit(f"{name}: {line.decode()} in place of {want.decode()}")


def measure(name, file, stubbed, counts, program, folder, pin):
    image, stubs, table, into = (os.path.join(folder, part) for part in ("image.elf", "stubs.toml", "table", "out"))
    for path, content in ((image, file), (stubs, STUBS)):
        with open(path, "wb") as out:
            out.write(content)
    with_stubs = ["--stubs", stubs] if stubbed else []
    locations, edges, rows = counts

    recovering, _ = run(pin + [program, "recover", image] + with_stubs, into)
    expect(name, lines(into)[-2], b"end %d %d 0" % (locations, edges))
    printing, _ = run(pin + [program, "table", image] + with_stubs, table)
    expect(name, lines(table)[-2], b"end %d" % rows)
    checking, _ = run(pin + [program, "check", image, table] + with_stubs, into)
    expect(name, lines(into)[0], b"yes %d %d" % (rows, edges))
    print(
        f"{name:14} {rows:6} rows, {os.path.getsize(table) / 1e6:6.2f} MB   recover {recovering * 1e3:7.1f} ms"
        f"   table {printing * 1e3:7.1f} ms, {printing / recovering:5.2f} times"
        f"   check {checking * 1e3:7.1f} ms, {checking / recovering:5.2f} times"
    )
    return checking / recovering


def main():
    root = os.path.dirname(os.path.dirname(os.path.abspath(__file__)))
    built = os.path.join(root, "crates", "jakstab_main", "out", "jakstab_main")
    program = os.path.abspath(sys.argv[1]) if len(sys.argv) > 1 else built
    pin = ["taskset", "-c", str(max(os.sched_getaffinity(0)))] if shutil.which("taskset") else []
    with tempfile.TemporaryDirectory() as folder:
        ratios = [measure(*image, program, folder, pin) for image in images()]
    print(f"check of the demo's table takes {ratios[-1]:.2f} times what recover of its image takes, to be {MOST_OF_RECOVER} at most")
    sys.exit(0 if ratios[-1] <= MOST_OF_RECOVER else 1)


if __name__ == "__main__":
    main()
