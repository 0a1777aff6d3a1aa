#!/usr/bin/env python3
"""Times explorations on one processor and on all of them, and compares what they print.

    bench/threads.py [PROGRAM]

PROGRAM is the proved and built program, crates/jakstab_main/out/jakstab_main where none is given (`./jakstab` builds it).
The files are made anew in a folder of their own, which goes at the end. `demo 2000` has rounds of few rows, so it shows what the
rounds cost. In the wide code a comparison leaves so many values of EAX, with each of which the code behind it is explored side by
side; with branches, so many pieces of such code follow a jump table, so that their rows fill rounds of 4,096; in the wide deep code
there are sixty facts on the stack beside that. One processor and all take turns. Printed are the least times and how many times
faster all processors are. Ends with status 1 where the output differs. Needs `taskset`.
"""
import os
import struct
import sys
import tempfile

sys.path.insert(0, os.path.dirname(os.path.abspath(__file__)))
from decode import BASE, elf, lines
from rows import run

# Seven steps on the stack and in registers that leave EAX as it was.
STEPS, STEPS_BYTES = 7, bytes.fromhex("50 8B0C24 83C105 890C24 5A 83EA05 89D0")


def wide(values, pieces, facts):
    """Code behind `cmp eax, values - 1; ja`, with so many facts on the stack before it; and its locations, edges and rows."""
    front = b"\x6a\x07" * facts
    body = STEPS_BYTES * pieces
    code = front + b"\x3d" + struct.pack("<I", values - 1) + b"\x0f\x87" + struct.pack("<I", len(body)) + body + b"\xf4"
    steps = STEPS * pieces
    return code, facts + 2 + steps + 1, facts + 2 + steps + 1


def branches(values, pieces, count):
    """Such code so many times, behind a jump through a table by EBX; and its locations and edges."""
    one, locations, edges = wide(values, pieces, 0)
    front = b"\x83\xfb" + bytes([count - 1]) + b"\x77\x07\xff\x24\x9d"
    table = BASE + len(front) + 5
    words = b"".join(struct.pack("<I", table + 4 * count + len(one) * i) for i in range(count))
    # the comparison, the jump over the other, which goes to each piece, and its end
    return front + struct.pack("<I", table) + b"\xf4" + words + one * count, 4 + locations * count, 2 + (1 + edges) * count + 1


def compare(name, command, folder, end):
    ours, all_ours = os.path.join(folder, "one"), os.path.join(folder, "all")
    pin = ["taskset", "-c", str(min(os.sched_getaffinity(0)))]
    turns = [(run(pin + command, ours)[0], run(command, all_ours)[0]) for _ in range(3)]
    one, every = (min(times) for times in zip(*turns))
    if lines(ours) != lines(all_ours):
        sys.exit(f"{name}: other output on several processors")
    if end is not None and lines(ours)[-2] != end:
        sys.exit(f"{name}: {lines(ours)[-2].decode()} in place of {end.decode()}")
    print(f"{name:24} one processor {one * 1e3:9.1f} ms   {len(os.sched_getaffinity(0))} processors {every * 1e3:9.1f} ms   faster {one / every:5.2f} times")


def main():
    root = os.path.dirname(os.path.dirname(os.path.abspath(__file__)))
    built = os.path.join(root, "crates", "jakstab_main", "out", "jakstab_main")
    program = os.path.abspath(sys.argv[1]) if len(sys.argv) > 1 else built
    with tempfile.TemporaryDirectory() as folder:
        compare("demo 2000", [program, "demo", "2000", "--budget", "1000000"], folder, None)
        for name, values, pieces, facts in (
            ("128 values", 128, 40, 0),
            ("1,000 values", 1000, 20, 0),
            ("4 branches of 1,000", 1000, 8, 0),
            ("1,000 values, 60 facts", 1000, 5, 60),
        ):
            code, locations, edges = branches(values, pieces, 4) if name.startswith("4 ") else wide(values, pieces, facts)
            image = os.path.join(folder, "wide.elf")
            with open(image, "wb") as out:
                out.write(elf(code))
            command = [program, "recover", image, "--k", "1024", "--budget", "1000000"]
            compare(name, command, folder, b"end %d %d 0" % (locations, edges))


if __name__ == "__main__":
    main()
