#!/usr/bin/env python3
"""Times the exploration of large generated images (`demo N`) and of nested loops, beside `objdump -D -b binary -m i386`.

    bench/demo.py [PROGRAM]

PROGRAM is the proved and built program, crates/jakstab_main/out/jakstab_main where none is given (`./jakstab` builds it).
`demo N` explores N blocks of 64 bytes, with a jump through a table, a call of a loop and a jump to the next block in each;
the nested loops have many rows at few locations, one for each pair of counts. Printed are microseconds and KiB of memory
for a row, the time beside what objdump takes for an instruction of the same code, and the exponent with which the time
grows with the rows. Due: at most 3 times objdump's time, an exponent of at most 1.1, and 1 KiB a row on `demo`.
"""
import math
import os
import shutil
import struct
import sys
import tempfile

sys.path.insert(0, os.path.dirname(os.path.abspath(__file__)))
from decode import BASE, elf, lines, seconds
from rows import run, table_block

MOST_OF_OBJDUMP, MOST_EXPONENT, MOST_KIB = 3, 1.1, 1.0


def nested(inner, outer):
    """Two loops that count to these numbers, one in the other: 3 rows for each pair of counts and 4 for each outer one."""
    code = bytes.fromhex("31C9 31D2 42 81FA") + struct.pack("<I", inner) + bytes.fromhex("75F7 41 81F9")
    return code + struct.pack("<I", outer) + bytes.fromhex("75EC F4")


def objdump_each(code, folder, pin):
    """What objdump takes for an instruction of this code, repeated to some size."""
    raw, theirs = os.path.join(folder, "code.bin"), os.path.join(folder, "theirs")
    with open(raw, "wb") as out:
        out.write(code * max(1, 40_000 // len(code)))
    spent = seconds(["objdump", "-D", "-b", "binary", "-m", "i386", f"--adjust-vma={BASE:#x}", raw], theirs, pin)
    return spent / (len(lines(theirs)) - 7)


def tell(name, found, each):
    (few, short, small), (many, long, large) = found[0], found[-1]
    exponent = math.log(long / short) / math.log(many / few)
    kib = (large - small) / (many - few)
    beside = long / many / each
    print(
        f"{name:12} {many:7} rows {long * 1e3:8.1f} ms   {long / many * 1e6:6.2f} us and {kib:6.2f} KiB a row"
        f"   beside objdump's instruction {beside:5.2f}   exponent {exponent:5.2f}"
    )
    return beside, exponent, kib


def demo(program, folder, pin):
    found = []
    for n in (200, 500, 1000, 2000):
        into = os.path.join(folder, "demo")
        spent, memory = run(pin + [program, "demo", str(n), "--budget", "1000000"], into)
        rows, locations, edges = 24 * n + 3, 14 * n + 2, 18 * n + 1
        if lines(into)[0] != b"demo %d rows %d locations %d edges %d opens 0" % (n, rows, locations, edges):
            sys.exit(f"demo {n} printed {lines(into)[0].decode()}")
        found.append((rows, spent, memory))
    return tell("demo", found, objdump_each(b"".join(map(table_block, range(500))), folder, pin))


def loops(program, folder, pin):
    found = []
    for count in (30, 100, 300):
        code, image, into = nested(count, count), os.path.join(folder, "loops.elf"), os.path.join(folder, "loops")
        with open(image, "wb") as out:
            out.write(elf(code))
        spent, memory = run(pin + [program, "recover", image, "--k", "1024", "--budget", "1000000"], into)
        if lines(into)[-2] != b"end 9 10 0":
            sys.exit(f"{count}: {lines(into)[-2].decode()} in place of end 9 10 0")
        found.append((3 * count * count + 4 * count + 2, spent, memory))
    return tell("nested loops", found, objdump_each(nested(300, 300), folder, pin))


def main():
    root = os.path.dirname(os.path.dirname(os.path.abspath(__file__)))
    built = os.path.join(root, "crates", "jakstab_main", "out", "jakstab_main")
    program = os.path.abspath(sys.argv[1]) if len(sys.argv) > 1 else built
    pin = ["taskset", "-c", str(max(os.sched_getaffinity(0)))] if shutil.which("taskset") else []
    with tempfile.TemporaryDirectory() as folder:
        found = [demo(program, folder, pin), loops(program, folder, pin)]
    beside, exponent, kib = max(f[0] for f in found), max(f[1] for f in found), found[0][2]
    print(
        f"a row beside objdump's instruction {beside:.2f}, to be {MOST_OF_OBJDUMP} at most; exponent {exponent:.2f}, to be {MOST_EXPONENT} at most; "
        f"demo {kib:.2f} KiB a row, to be {MOST_KIB} at most"
    )
    sys.exit(0 if beside <= MOST_OF_OBJDUMP and exponent <= MOST_EXPONENT and kib <= MOST_KIB else 1)


if __name__ == "__main__":
    main()
