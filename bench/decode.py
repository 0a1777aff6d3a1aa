#!/usr/bin/env python3
"""Times the program's `decode` beside `objdump -D -b binary -m i386` over the same 100,000 instructions.

    bench/decode.py [PROGRAM]

PROGRAM is the proved and built program, crates/jakstab_main/out/jakstab_main where none is given (`./jakstab` builds it).
The files are made anew in a folder of their own, which goes at the end. Each time is the least of some runs, on one
core where `taskset` is there, with the output sent to a file; a run of each on one instruction is taken off as the
start of the process. Printed are the times, the time of an instruction, and the ratio, which is to be 3 at most.
"""
import os
import random
import shutil
import struct
import subprocess
import sys
import tempfile
import time

COUNT = 100_000
BASE = 0x08048000
RUNS = 7

# Instructions of compiled code, about as often as they come, by their bytes; two dots stand for a byte that is drawn.
MIXES = {
    "compiled": """
        55 | 89E5 | 53 | 56 | 57 | 5B | 5E | 5F | 5D | C3 | C9 | 90 | 31C0 | 31D2 | 85C0 | 85C0 | 89C3 | 89D8 | 89F0
        83EC.. | 83C4.. | 8B45.. | 8B45.. | 8B55.. | 8B4D.. | 8945.. | 8945.. | 8B4424.. | 894424.. | 8D45.. | 8D5424..
        8B83........ | 8B04B500000000 | 890485........ | 8D8D........ | A1........ | A3........ | C7442404........
        C745..00000000 | B8........ | BA........ | 68........ | 6A.. | FF75.. | FF7424.. | 50 | 51 | 52 | E8........ | E8........
        EB.. | E9........ | 74.. | 75.. | 7F.. | 7E.. | 0F84........ | 0F85........ | 0FB600 | 0FB64405.. | 0FBEC0 | 0FAFC2
        01D0 | 29C8 | 39D8 | 3B45.. | 83F8.. | 3D........ | 83C0.. | 83E0.. | C1E0.. | D1F8 | F7D8 | 40 | 4A | 0F94C0
        65A114000000 | 653B0514000000 | FF24850080040B | F3A5 | 6689442408 | 668B4508
    """,
    "one byte": "90 | 40 | 4A | 50 | 5D | C3 | 98 | 99",
    "long": "66C78424............ | C78424................ | 69843E................ | 65F7843E................",
}


def instructions(mix, count, random):
    forms = [form.strip() for line in mix.strip().splitlines() for form in line.split("|")]
    out = bytearray()
    for _ in range(count):
        form = random.choice(forms)
        pairs = (form[i : i + 2] for i in range(0, len(form), 2))
        out += bytes(random.randrange(256) if pair == ".." else int(pair, 16) for pair in pairs)
    return bytes(out)


def elf(code):
    header = b"\x7fELF\x01\x01\x01" + bytes(9)
    header += struct.pack("<HHIIIIIHHHHHH", 2, 3, 1, BASE, 52, 0, 0, 52, 32, 1, 0, 0, 0)
    header += struct.pack("<IIIIIIII", 1, 84, BASE, BASE, len(code), len(code), 5, 1)
    return header + code


def seconds(command, into, pin):
    best = None
    for _ in range(RUNS):
        with open(into, "wb") as out:
            start = time.perf_counter()
            subprocess.run(pin + command, stdout=out, check=True)
            spent = time.perf_counter() - start
        best = spent if best is None else min(best, spent)
    return best


def lines(path):
    with open(path, "rb") as text:
        return text.read().split(b"\n")


def measure(name, mix, program, folder, pin):
    code = instructions(mix, COUNT, random.Random(name))
    image, raw = os.path.join(folder, "code.elf"), os.path.join(folder, "code.bin")
    with open(image, "wb") as out:
        out.write(elf(code))
    with open(raw, "wb") as out:
        out.write(code)
    ours, theirs = os.path.join(folder, "ours"), os.path.join(folder, "theirs")
    objdump = ["objdump", "-D", "-b", "binary", "-m", "i386", f"--adjust-vma={BASE:#x}"]

    start_ours = seconds([program, "decode", image, f"{BASE:08X}", "1"], ours, pin)
    start_theirs = seconds(objdump + [f"--stop-address={BASE + 1:#x}", raw], theirs, pin)
    time_ours = seconds([program, "decode", image, f"{BASE:08X}", str(COUNT)], ours, pin)
    listed = lines(ours)[-2]
    if listed != b"end %d" % COUNT:
        sys.exit(f"{name}: {listed.decode()} in place of end {COUNT}")
    time_theirs = seconds(objdump + [raw], theirs, pin)
    net_ours, net_theirs = time_ours - start_ours, time_theirs - start_theirs
    print(
        f"{name:10} {len(code):8} bytes   ours {time_ours * 1e3:7.1f} ms ({net_ours / COUNT * 1e6:5.2f} us each)"
        f"   objdump {time_theirs * 1e3:7.1f} ms ({net_theirs / COUNT * 1e6:5.2f} us each)"
        f"   ratio {time_ours / time_theirs:5.2f}, without the start {net_ours / net_theirs:5.2f}"
    )
    return max(time_ours / time_theirs, net_ours / net_theirs)


def main():
    root = os.path.dirname(os.path.dirname(os.path.abspath(__file__)))
    built = os.path.join(root, "crates", "jakstab_main", "out", "jakstab_main")
    program = os.path.abspath(sys.argv[1]) if len(sys.argv) > 1 else built
    pin = ["taskset", "-c", str(max(os.sched_getaffinity(0)))] if shutil.which("taskset") else []
    with tempfile.TemporaryDirectory() as folder:
        ratios = [measure(name, mix, program, folder, pin) for name, mix in MIXES.items()]
    print(f"greatest ratio {max(ratios):.2f}; it is to be 3 at most")
    sys.exit(0 if max(ratios) <= 3 else 1)


if __name__ == "__main__":
    main()
