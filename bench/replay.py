#!/usr/bin/env python3
"""Times `run` and `replay` on a loop with a call, memory and a string operation.

    bench/replay.py [PROGRAM]

PROGRAM is the proved and built program, crates/jakstab_main/out/jakstab_main where none is given (`./jakstab` builds it).
The files are made anew in a folder of their own, which goes at the end. Each command is timed with a number of steps and
with ten times as many. Printed are microseconds a step and how many times longer the ten times as many take. Due: at most
2 microseconds a step with its line, and at most 12 times the time.
"""
import os
import shutil
import sys
import tempfile

sys.path.insert(0, os.path.dirname(os.path.abspath(__file__)))
from decode import elf, lines
from rows import run

STEPS = 100_000
MOST_MICROSECONDS, MOST_GROWTH = 2.0, 12.0

# mov edi, esp; sub edi, 256; again: push eax; call there; pop eax; inc eax; mov [esp-64], eax; dec edi; stosb; jmp again; nop; there: add edx, [esp-64]; ret
LOOP = bytes.fromhex("89E7 81EF00010000 50 E80B000000 58 40 894424C0 4F AA EBF0 90 035424C0 C3")

START = """jakstab-start 1
regs 00000000 00000000 00000000 00000000 BFFF0000 00000000 00000000 BFFEFF00
flags 000000
bases 10000000 20000000
end
"""


def timed(command, into):
    spent, _ = run(command, into)
    return spent


def main():
    root = os.path.dirname(os.path.dirname(os.path.abspath(__file__)))
    built = os.path.join(root, "crates", "jakstab_main", "out", "jakstab_main")
    program = os.path.abspath(sys.argv[1]) if len(sys.argv) > 1 else built
    pin = ["taskset", "-c", str(max(os.sched_getaffinity(0)))] if shutil.which("taskset") else []
    slowest, growth = 0.0, 0.0
    with tempfile.TemporaryDirectory() as folder:
        image, start, automaton, verdict = (os.path.join(folder, name) for name in ("loop.elf", "start", "automaton", "verdict"))
        with open(image, "wb") as out:
            out.write(elf(LOOP))
        with open(start, "w") as out:
            out.write(START)
        run(pin + [program, "recover", image], automaton)
        found = {"run": [], "replay": []}
        for steps in (STEPS, 10 * STEPS):
            record = os.path.join(folder, f"record{steps}")
            found["run"].append(timed(pin + [program, "run", image, start, str(steps)], record))
            if lines(record)[-2] != b"end steps":
                sys.exit(f"run of {steps} steps ended with {lines(record)[-2].decode()}")
            found["replay"].append(timed(pin + [program, "replay", image, automaton, record], verdict))
            if lines(verdict)[0] != b"inside %d" % steps:
                sys.exit(f"replay of {steps} steps gave {lines(verdict)[0].decode()}")
    for name, (short, long) in found.items():
        each = long / (10 * STEPS) * 1e6
        slowest, growth = max(slowest, each), max(growth, long / short)
        print(f"{name:7} {10 * STEPS} steps {long * 1e3:8.1f} ms   {each:5.2f} us a step   ten times the steps {long / short:5.2f}")
    print(f"a step {slowest:.2f} us, to be {MOST_MICROSECONDS} at most; ten times the steps {growth:.2f}, to be {MOST_GROWTH} at most")
    sys.exit(0 if slowest <= MOST_MICROSECONDS and growth <= MOST_GROWTH else 1)


if __name__ == "__main__":
    main()
