#!/usr/bin/env python3
"""Times the program's `recover` on straight lines of 5,000 and of 20,000 instructions.

    bench/recover.py [PROGRAM]

PROGRAM is the proved and built program, crates/jakstab_main/out/jakstab_main where none is given (`./jakstab` builds it).
The files are made anew in a folder of their own, which goes at the end. Each time is the least of some runs, on one
core where `taskset` is there. Four times the work is to take at most six times as long: appending a row looks at its own
location, and not at the whole log. Beside it stands `objdump -D -b binary -m i386` on the same bytes.
"""
import os
import shutil
import subprocess
import sys
import tempfile

sys.path.insert(0, os.path.dirname(os.path.abspath(__file__)))
from decode import BASE, elf, lines, seconds

SHORT, LONG = 5_000, 20_000
MOST = 6

LINES = {
    "nop": (b"\x90", []),
    "inc eax": (b"\x40", ["--k", "1024", "--budget", "1000000"]),
    "inc eax, flat": (b"\x40", ["--domain", "flat", "--k", "1024", "--budget", "1000000"]),
    "mov, cmp": (b"\xb8\x01\x00\x00\x00\x83\xf8\x01", []),
}


def measure(name, piece, options, program, folder, pin):
    times = []
    for count in (SHORT, LONG):
        code = piece * count
        image, raw, ours = (os.path.join(folder, part) for part in ("code.elf", "code.bin", "ours"))
        with open(image, "wb") as out:
            out.write(elf(code))
        with open(raw, "wb") as out:
            out.write(code)
        times.append(seconds([program, "recover", image] + options, ours, pin))
        counts = lines(ours)[-2].split()
        if len(counts) != 4 or int(counts[2]) < count:
            sys.exit(f"{name}: {counts} is not the end of so many edges")
        theirs = seconds(["objdump", "-D", "-b", "binary", "-m", "i386", f"--adjust-vma={BASE:#x}", raw], ours, pin)
    ratio = times[1] / times[0]
    print(
        f"{name:14} {SHORT} {times[0] * 1e3:7.1f} ms   {LONG} {times[1] * 1e3:7.1f} ms   ratio {ratio:5.2f}"
        f"   objdump {theirs * 1e3:7.1f} ms, ours beside it {times[1] / theirs:5.2f}"
    )
    return ratio


def main():
    root = os.path.dirname(os.path.dirname(os.path.abspath(__file__)))
    built = os.path.join(root, "crates", "jakstab_main", "out", "jakstab_main")
    program = os.path.abspath(sys.argv[1]) if len(sys.argv) > 1 else built
    pin = ["taskset", "-c", str(max(os.sched_getaffinity(0)))] if shutil.which("taskset") else []
    with tempfile.TemporaryDirectory() as folder:
        ratios = [measure(name, *line, program, folder, pin) for name, line in LINES.items()]
    print(f"greatest ratio {max(ratios):.2f}; it is to be {MOST} at most")
    sys.exit(0 if max(ratios) <= MOST else 1)


if __name__ == "__main__":
    main()
