#!/usr/bin/env python3
"""Times the program's `recover` on code with calls, traffic on the stack and jump tables, beside `objdump -D -b binary -m i386`.

    bench/rows.py [PROGRAM]

PROGRAM is the proved and built program, crates/jakstab_main/out/jakstab_main where none is given (`./jakstab` builds it).
The files are made anew in a folder of their own, which goes at the end. Each kind of code is made in two sizes, the
second four times the first. Printed are microseconds and KiB of memory for a row of the exploration, the time beside
what objdump takes for an instruction, and how many times longer the larger size takes. Four times the work is to take at most
5 times the time, and a row at most 4 times objdump's time for an instruction.
"""
import os
import shutil
import struct
import subprocess
import sys
import tempfile
import time

sys.path.insert(0, os.path.dirname(os.path.abspath(__file__)))
from decode import BASE, elf, lines, seconds

RUNS = 5
MOST_OF_OBJDUMP, MOST_GROWTH = 4, 5


def table_block(number):
    """64 bytes: a jump through a table of its own, a call of a loop, a return, and a jump to the next block."""
    at = BASE + 64 * number
    word = lambda offset: struct.pack("<I", at + offset)
    code = bytes.fromhex("8B442404 83F802 7712 FF2485") + word(40)
    code += bytes.fromhex("E808000000 EB04 90 90 EB00 EB23 B903000000 49 75FD C3 9090")
    return code + word(16) + word(23) + word(24) + b"\xf4" * 12


TRAFFIC = bytes.fromhex("6A05 50 89442404 8B4C2404 59 5A 55 89E5 8B4500 5D")

# The code, and for n pieces of it how many locations, edges and rows it has.
KINDS = {
    "jump tables": (1_000, lambda n: b"".join(map(table_block, range(n))), lambda n: (14 * n + 1, 18 * n, 24 * n + 1)),
    "the stack": (2_000, lambda n: TRAFFIC * n, lambda n: (10 * n + 1, 10 * n, 10 * n + 1)),
    "a deep stack": (500, lambda n: b"\x6a\x07" * 60 + TRAFFIC * n, lambda n: (10 * n + 61, 10 * n + 60, 10 * n + 61)),
}


def run(command, into):
    """The least time of some runs, and the memory of the last one in KiB."""
    best = None
    for _ in range(RUNS):
        with open(into, "wb") as out:
            start = time.perf_counter()
            child = subprocess.Popen(command, stdout=out)
            _, status, usage = os.wait4(child.pid, 0)
            spent = time.perf_counter() - start
        if status != 0:
            sys.exit(f"{command} ended with {status}")
        best = spent if best is None else min(best, spent)
    return best, usage.ru_maxrss


def measure(name, kind, program, folder, pin):
    first, code_of, counts_of = kind
    found = []
    for count in (first, 4 * first):
        code = code_of(count) + b"\xf4"
        image, raw, ours = (os.path.join(folder, part) for part in ("code.elf", "code.bin", "ours"))
        with open(image, "wb") as out:
            out.write(elf(code))
        with open(raw, "wb") as out:
            out.write(code)
        spent, memory = run(pin + [program, "recover", image, "--budget", "1000000"], ours)
        locations, edges, rows = counts_of(count)
        if lines(ours)[-2] != b"end %d %d 0" % (locations, edges):
            sys.exit(f"{name}: {lines(ours)[-2].decode()} in place of end {locations} {edges} 0")
        found.append((spent, memory, rows))
        objdump = ["objdump", "-D", "-b", "binary", "-m", "i386", f"--adjust-vma={BASE:#x}", raw]
        theirs = seconds(objdump, ours, pin)
        instructions = len(lines(ours)) - 7
    (less, small, few), (more, large, many) = found
    each, growth = more / many, more / less
    beside = each / (theirs / instructions)
    print(
        f"{name:14} {many:7} rows {more * 1e3:8.1f} ms   {each * 1e6:6.2f} us and {(large - small) / (many - few):6.2f} KiB a row"
        f"   objdump {theirs / instructions * 1e6:5.2f} us an instruction, a row beside it {beside:5.2f}   four times the work {growth:5.2f}"
    )
    return beside, growth


def main():
    root = os.path.dirname(os.path.dirname(os.path.abspath(__file__)))
    built = os.path.join(root, "crates", "jakstab_main", "out", "jakstab_main")
    program = os.path.abspath(sys.argv[1]) if len(sys.argv) > 1 else built
    pin = ["taskset", "-c", str(max(os.sched_getaffinity(0)))] if shutil.which("taskset") else []
    with tempfile.TemporaryDirectory() as folder:
        found = [measure(name, kind, program, folder, pin) for name, kind in KINDS.items()]
    beside, growth = max(f[0] for f in found[:-1]), max(f[1] for f in found)
    print(f"a row beside objdump's instruction {beside:.2f} but for the deep stack, to be {MOST_OF_OBJDUMP} at most; growth {growth:.2f}, to be {MOST_GROWTH} at most")
    sys.exit(0 if beside <= MOST_OF_OBJDUMP and growth <= MOST_GROWTH else 1)


if __name__ == "__main__":
    main()
