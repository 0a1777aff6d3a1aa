#!/usr/bin/env python3
"""Runs the program on damaged files and demands that each run ends as README.md lists it.

    bench/hostile.py [--program PROGRAM] [--files N] [--first I] [--seed S] [--jobs J] [--keep FOLDER] [--one I]
    bench/hostile.py --worst [--program PROGRAM] [--keep FOLDER] [NAME..]

PROGRAM is the proved and built program, crates/jakstab_main/out/jakstab_main where none is given (`./jakstab` builds it).
File i of a seed is always the same: an image with a stub file, where the program knows `run` also a start file, an automaton
and a record, made from the samples and from worked files by a few changes. Every command is run on them with 2 seconds of
processor time and 512 MiB. A finding is an ending by a signal or by the time, a status that is not listed, another line on
standard error than the status's, output beside a refusal, output that is cut off, or a refusal that is not for the first fault,
which `first_fault.py` finds apart from the program. Printed are how many runs ended with each status, the slowest run, and the findings; their files are kept in
FOLDER. The status is 1 where anything was found. `--one I` runs file i alone and shows its runs.

With `--worst` it runs the program on the files that cost it most, as far as they are known, with a minute and 4 GiB, prints the
time and the memory of each, and ends with status 1 where one takes more than 2 seconds or 512 MiB.
"""
import argparse
import collections
import multiprocessing
import os
import random
import re
import resource
import signal
import struct
import sys
import tempfile

import first_fault
import forms
import worst

SECONDS, BYTES, WALL = 2, 512 << 20, 60
IMAGE_FAULTS = [*range(1, 18), *range(101, 114), 200]
NOTES = {
    0: b"",
    1: b"",
    2: b"jakstab: usage\n",
    3: b"jakstab: (cannot read|too long) (image|stubs|first|second)\n",
    4: b"jakstab: cannot write\n",
    5: b"jakstab: image refused (" + b"|".join(b"%d" % n for n in IMAGE_FAULTS) + b")\n",
    6: b"jakstab: stubs refused [1-5]\n",
    7: b"jakstab: no memory\n",
    8: b"jakstab: input refused [1-9][0-9]* ([1-7]|1[1-4])\n",
}
# The statuses that a command on files that are there may have.
MAY_END = {"decode": {0, 5, 7}, "demo": {0, 7}, "run": {0, 5, 6, 7, 8}, "replay": {0, 1, 5, 6, 7, 8}}

WORDS = [0, 1, 2, 3, 4, 7, 8, 15, 16, 31, 32, 63, 64, 65, 95, 96, 97, 255, 256, 0xFFF, 0x1000, 0x1001, 0x7FFF, 0x8000, 0xFFFF, 0x10000]
WORDS += [0x3FFFFF, 0x400000, 0x400008, 0x3FFFFFF, 0x4000000, 0x4000001, 0x7FFFFFFF, 0x80000000, 0xEFFFFFFF, 0xEFFFF000, 0xF0000000, 0xF0000010]
WORDS += [0xFFFFFFFF, 0xFFFFFFFC, 0xFFFFF000, forms.BASE, forms.TABLES, 0x400000 + forms.BASE]
# Instructions and their beginnings, of which code is drawn.
CODE = """90 F4 CC C3 C9 EBFE EB00 7400 75FD 0F84 0F85 E800000000 E9 FFE0 FFD0 FF25 FF15 FF2485 FF3424 50 58 54 5C 6A00 68 B8 BF
    89C8 8908 8B00 8901 A1 A3 A2 A0 C6 C7 0105 81EC 81C4 83EC10 83F802 83F87F 3D 7607 7707 E2FE E3 F3AA F2AE F3A5 A4 AB F7F1 F6 D3E0 C1E0
    0FA4 0FB1 0FC1 0FBC 0FBD 0FA3 0FBA 0F94C0 0F44 0FB6 0FBF 66 64 65 F0 F2 F3 2E CD80 0F0B 87 99 98 9E 9F FC FD C20400 C8 62 C4 D9""".split()
STUB_KEYS = "args cleans reply number size size_arg zeroed may_fail enter_arg writes arg length length_arg stub stack_align malloc exit other k.dll#7".split()
STUB_VALUES = """true false -1 0 1 2 3 4 8 16 64 65 68 4096 4097 67108864 67108865 4294967295 4294967296 9223372036854775807 9223372036854775808 0x10 0b1
    1e3 inf 1979-05-27 "" "any" "number" "block" 'never' "enter" "Any" [] {} [[]] [{}] [{arg=0,length=4}] [{arg=0}] [{arg=0,length=1,length_arg=0}]
    [{arg=0,length=67108865}] [{arg=0,size=4}] [{arg=0,length=4},{arg=0,length=4},{arg=0,length=4},{arg=0,length=4},{arg=0,length=0}]""".split()
START = b"jakstab-start 1\nregs 00000000 00000000 00000000 00000000 BFFF0000 00000000 00000000 00000000\nflags 000000\nbases 10000000 20000000\n"
FILLS = [b"fill BFFF0000 00000000\n", b"fill 10000014 78563412\n", b"choice 00 00000000 00000000 00000000 20010000 0\n", b"choice 3F FFFFFFFF 00000001 00000002 00000000 1\n"]


def bases():
    """Images with the address of their entry and a stub file."""
    text = bytes.fromhex
    greet, square, base = forms.sample("greet.toml"), forms.EXIT_PROCESS, forms.BASE
    out = [
        (forms.sample("days.elf"), 0x08048100, b""),
        (forms.sample("greet.elf"), 0x080481E0, greet),
        (forms.sample("square.exe"), 0x00401000, square),
        (forms.form_p(text("6A00FF1534204000CC")), 0x00401000, square),
        (forms.form_d(text("6A08FF1500000009C60001F4"), [(b"malloc", False)]), base, forms.MALLOC),
        (forms.form_d(text("A10000000985C07401CCF4"), [(b"__gmon_start__", True)]), base, forms.MALLOC),
        (forms.form_d(text("680F80040854FF150000000959C390F4"), [(b"fill", False)]), base, forms.FILL),
        (forms.form_d(text("FF1500000009FF1504000009F4"), [(b"malloc", False), (b"exit", True)], 7), base, forms.MALLOC + forms.EXIT),
        (forms.LIBC_MAIN, base, forms.START_MAIN),
        (forms.demo_image(2), base, forms.EXIT),
    ]
    codes = ["EBFE", "EBFFC0F4", "E806000000E801000000F4C3", "83F8027707FF248510800408F4F4F4F40D8004080E8004080F800408", "8D7C24F0B903000000F3AAF4"]
    codes += ["C605078004080890F4", "90C60500800408" + "40EBF6", "A205800408F4", "B80000000040EBFD", "81EC0000200050", "83F87E7601F4F4", "E8FBFFFFFF"]
    out += [(forms.form_e(text(code), rights), base, b"") for code in codes for rights in (5, 7)]
    return out


def drawn_code(draw):
    out = b""
    for _ in range(draw.randrange(1, 40)):
        out += bytes.fromhex(draw.choice(CODE)) if draw.random() < 0.8 else draw.randbytes(draw.randrange(1, 5))
        if draw.random() < 0.4:
            out += draw.choice([bytes([draw.choice([0, 1, 4, 0x10, 0x7F, 0x80, 0xFC, 0xFF])]), words_near(draw)])
    return out


def words_near(draw):
    return struct.pack("<I", (draw.choice([forms.BASE, forms.TABLES, 0, 1]) + draw.randrange(0, 64)) & 0xFFFFFFFF)


def number_for(draw, file):
    """A number at the end of some range, perhaps of that file, or near a word of the file."""
    size = len(file)
    if size >= 4 and draw.random() < 0.5:
        at = draw.randrange(size - 3)
        n = int.from_bytes(file[at : at + 4], "little")
    else:
        n = draw.choice(WORDS + [size, size - 1, size + 1])
    return n + draw.choice([0, 0, 1, -1, 4, -4, 16])


def place_in(draw, file):
    """A place in the file: seldom in its first bytes, often in its headers."""
    size, kind = len(file), draw.randrange(10)
    if size < 64 or kind == 0:
        return draw.randrange(size) if size else 0
    return draw.randrange(52, min(size, 300)) if kind < 6 else draw.randrange(min(64, size - 1), size)


def damaged(draw, file):
    """The file after one change."""
    kind, at = draw.randrange(20), place_in(draw, file)
    if kind == 0:
        return file[: draw.choice([draw.randrange(len(file) + 1), max(0, len(file) - draw.randrange(1, 17))])]
    if kind == 1:
        return file + draw.randbytes(draw.randrange(1, 64))
    if kind == 2:
        some = draw.randrange(1, 17)
        return file[:at] + file[place_in(draw, file) :][:some] + file[at + some :]
    if kind == 3:
        return file[:at] + draw.randbytes(draw.randrange(1, 5)) + file[at:]
    if kind == 4:
        return file[:at] + file[at + draw.randrange(1, 9) :]
    if kind < 10:
        new = bytes([draw.choice([0, 1, 2, 5, 6, 7, 8, 10, 0x7F, 0x80, 0xFF, draw.randrange(256)])])
    elif kind == 10:
        new = struct.pack("<H", number_for(draw, file) & 0xFFFF)
    else:
        at, new = at & ~3, struct.pack("<I", number_for(draw, file) & 0xFFFFFFFF)
    return file[:at] + new + file[at + len(new) :]


def damaged_text(draw, text):
    """The text after one change of a line, a word or a byte."""
    kind = draw.randrange(8)
    if kind < 2:
        return damaged(draw, text)
    lines = text.split(b"\n")
    i = draw.randrange(len(lines))
    if kind == 2:
        del lines[i]
    elif kind == 3:
        lines.insert(draw.randrange(len(lines) + 1), lines[i])
    elif kind == 4:
        j = draw.randrange(len(lines))
        lines[i], lines[j] = lines[j], lines[i]
    else:
        fields = lines[i].split(b" ")
        fields[draw.randrange(len(fields))] = draw.choice([b"%08X" % (number_for(draw, b"") & 0xFFFFFFFF), b"%d" % number_for(draw, b""), b"", b"-", b"00", b"import", b"step", b"fill"])
        lines[i] = b" ".join(fields)
    return b"\n".join(lines)


def damaged_stubs(draw, text):
    """The stub file after one change."""
    kind = draw.randrange(10)
    key, value = draw.choice(STUB_KEYS).encode(), draw.choice(STUB_VALUES).encode()
    if kind == 0:
        return damaged_text(draw, text)
    found = list(re.finditer(rb"= *([^\n]+)", text) if kind < 6 else re.finditer(rb"[A-Za-z0-9_]+", text))
    if kind < 7 and found:
        start, end = draw.choice(found).span(1 if kind < 6 else 0)
        return text[:start] + (value if kind < 6 else key) + text[end:]
    line = b"%s = %s\n" if kind < 9 else draw.choice([b"[stub.%s]\nargs = %s\n", b"[%s]\nargs = %s\n", b"[[stub.%s]]\nargs = %s\n", b"stub.%s.args = %s\n", b"# %s \xff%s\n"])
    lines = text.splitlines(True)
    lines.insert(draw.randrange(len(lines) + 1), line % (key, value))
    return b"".join(lines)


class Case:
    """Files of a number, and the commands on them."""

    def __init__(self, known, seed, number):
        draw = random.Random(f"{seed} {number}")
        base = draw.choice([2, 3, 3, *range(4, 10), draw.randrange(len(known.bases))])
        image, self.entry, stubs = known.bases[base]
        texts = known.texts[base] if known.runs else []
        if draw.random() < 0.2:
            image, self.entry = forms.form_e(drawn_code(draw), draw.choice([5, 7])), forms.BASE
        for _ in range(draw.choice([0, 1, 1, 1, 2, 2, 4])):
            image = damaged(draw, image)
        for _ in range(draw.choice([0, 0, 1, 2, 4])):
            stubs = damaged_stubs(draw, stubs or forms.MALLOC)
        texts = [self.changed(draw, text) for text in texts]
        self.files = dict(zip(["image", "stubs", "start", "automaton", "record"], [image, stubs, *texts]))
        self.commands = self.chosen(draw, number, known.runs)

    @staticmethod
    def changed(draw, text):
        for _ in range(draw.choice([0, 0, 1, 1, 2])):
            text = damaged_text(draw, text)
        return text

    def chosen(self, draw, number, runs):
        stubs = draw.choice([[], ["--stubs", "stubs"]])
        at = draw.choice([self.entry, self.entry, self.entry + draw.randrange(64), number_for(draw, b"") & 0xFFFFFFFF])
        out = [["list", "image", *stubs], ["decode", "image", "%08X" % at, str(draw.choice([1, 20, 1000]))]]
        for domain in ("flat", "bounded", "interval"):
            k = draw.choice([1, 4, 32, 32, 200])
            out.append(["recover", "image", *stubs, f"--domain={domain}", f"--k={k}", "--budget=1000", f"--text={draw.choice([1, 2])}"])
        if runs:
            out.append(["run", "image", "start", str(draw.choice([0, 1, 10, 1000])), *stubs])
            out.append(["replay", "image", "automaton", "record", *stubs])
        if number % 16 == 0:
            out.append(["demo", str(draw.randrange(12)), f"--domain={draw.choice(['flat', 'bounded', 'interval'])}", f"--k={draw.choice([1, 32, 1024])}", "--budget=1000"])
        return out


class Known:
    """The program, whether it knows `run`, and what the damaged files are made from."""

    def __init__(self, program):
        self.program, self.bases, self.texts = program, bases(), []
        self.runs = False
        with tempfile.TemporaryDirectory() as folder:
            runner = Runner(program, folder)
            runner.put({"image": self.bases[0][0], "start": START + b"end\n"})
            self.runs = runner.run(["run", "image", "start", "0"]).status != 2
            for image, _, stubs in self.bases if self.runs else []:
                self.texts.append(self.made(runner, image, stubs))

    @staticmethod
    def made(runner, image, stubs):
        start = START + b"".join(FILLS) + b"end\n"
        runner.put({"image": image, "stubs": stubs, "start": start})
        automaton = runner.run(["recover", "image", "--stubs", "stubs"]).out
        record = runner.run(["run", "image", "start", "100", "--stubs", "stubs"]).out
        return start, automaton, record or START.replace(b"start", b"record") + b"end steps\n"


Ended = collections.namedtuple("Ended", "status out note seconds bytes")


class Runner:
    """Runs the program in a folder; a status below 0 is a signal, and a signal of the time is -24."""

    def __init__(self, program, folder, seconds=SECONDS):
        self.program, self.folder, self.seconds, self.child = program, folder, seconds, None
        signal.signal(signal.SIGALRM, self.stop)

    def stop(self, *_):
        os.kill(self.child, signal.SIGKILL)

    def path(self, name):
        return os.path.join(self.folder, name)

    def put(self, files):
        for name, content in files.items():
            with open(self.path(name), "wb") as file:
                file.write(content)

    def run(self, command):
        words = [self.path(word) if os.path.exists(self.path(word)) else word for word in command]
        flags = os.O_WRONLY | os.O_CREAT | os.O_TRUNC
        streams = [(os.POSIX_SPAWN_OPEN, 0, os.devnull, os.O_RDONLY, 0)]
        streams += [(os.POSIX_SPAWN_OPEN, n, self.path(name), flags, 0o600) for n, name in ((1, ".out"), (2, ".note"))]
        self.child = os.posix_spawn(self.program, [self.program, *words], {}, file_actions=streams)
        signal.alarm(max(WALL, 4 * self.seconds))
        try:
            resource.prlimit(self.child, resource.RLIMIT_CPU, (self.seconds, self.seconds + 1))
        except ProcessLookupError:
            pass
        _, status, used = os.wait4(self.child, 0)
        signal.alarm(0)
        return Ended(os.waitstatus_to_exitcode(status), self.held(".out"), self.held(".note"), used.ru_utime + used.ru_stime, used.ru_maxrss << 10)

    def held(self, name):
        with open(self.path(name), "rb") as file:
            return file.read()


def limit_bytes(limit):
    resource.setrlimit(resource.RLIMIT_AS, (limit, resource.getrlimit(resource.RLIMIT_AS)[1]))


def count_lines(text, word):
    return text.count(b"\n" + word + b" ")


def is_whole(command, out):
    """Whether a text ends as its command's do, with its own counts."""
    if not out.endswith(b"\n"):
        return False
    first, last = out[: out.index(b"\n")], out[out[:-1].rfind(b"\n") + 1 :]
    if command[0] == "list":
        return first == b"jakstab-list 1" and last == b"end\n"
    if command[0] == "decode":
        count = len(re.findall(rb"\n[0-9A-F]{8} (?:[0-9A-F]{2})+ ", out))
        return first == b"jakstab-decode 1" and last == b"end %d\n" % count
    if command[0] == "recover":
        counts = tuple(count_lines(out, word) for word in (b"loc", b"edge", b"open"))
        return first == b"jakstab-automaton " + command[-1][-1:].encode() and last == b"end %d %d %d\n" % counts
    if command[0] == "demo":
        return re.fullmatch(rb"demo \d+ rows \d+ locations \d+ edges \d+ opens \d+\n", out) is not None
    if command[0] == "run":
        return first == b"jakstab-record 1" and re.fullmatch(rb"end (steps|exited|faulted|notlisted|nostub|badchoice)\n", last) is not None
    return re.fullmatch(rb"(inside \d+|open \d+ [0-9A-F]{8}|notanedge \d+ [0-9A-F]{8} [0-9A-F]{8}|notarun \d+ \w+)\n", out) is not None


def fault_of(command, ended):
    """What is wrong with how a run ended, or nothing."""
    if ended.status == -signal.SIGXCPU:
        return "time"
    if ended.status < 0:
        return f"signal {-ended.status}"
    if ended.status not in MAY_END.get(command[0], {0, 5, 6, 7}):
        return f"status {ended.status}"
    if not re.fullmatch(NOTES[ended.status], ended.note):
        return f"line {ended.note[:80]!r} with status {ended.status}"
    if ended.status > 1:
        return "output beside a refusal" if ended.out else None
    return None if is_whole(command, ended.out) else "output cut off"


def refusal_fault(files, command, ended):
    """Whether the files are refused otherwise than for their first fault, or are not refused and have one, or nothing."""
    if command[0] == "demo" or ended.status not in (0, 1, 5, 6, 8):
        return None
    number, kind = first_fault.image_fault(files["image"]), b"image"
    if number == 0 and "--stubs" in command:
        number, kind = first_fault.stubs_fault(files["stubs"]), b"stubs"
    due = b"jakstab: %s refused %d\n" % (kind, number) if number else b""
    if number is None or ended.note == due or not due and ended.status not in (5, 6):
        return None
    return f"{due or 'no refusal'} is due and {ended.note} came"


class Found:
    def __init__(self):
        self.ends, self.faults, self.slowest, self.runs = collections.Counter(), [], (0, 0, []), 0

    def take(self, number, files, command, ended):
        self.runs += 1
        self.ends[command[0], ended.status] += 1
        self.slowest = max(self.slowest, (ended.seconds, number, command))
        fault = fault_of(command, ended) or refusal_fault(files, command, ended)
        if fault:
            self.faults.append((number, fault, command))

    def join(self, other):
        self.ends += other.ends
        self.faults += other.faults
        self.slowest = max(self.slowest, other.slowest)
        self.runs += other.runs


def try_numbers(known, seed, numbers):
    found = Found()
    with tempfile.TemporaryDirectory(dir="/dev/shm" if os.path.isdir("/dev/shm") else None) as folder:
        runner = Runner(known.program, folder)
        for number in numbers:
            case = Case(known, seed, number)
            runner.put(case.files)
            for command in case.commands:
                found.take(number, case.files, command, runner.run(command))
    return found


def share(task):
    limit_bytes(BYTES)
    return try_numbers(*task)


def keep(folder, name, files):
    os.makedirs(os.path.join(folder, name), exist_ok=True)
    for file, content in files.items():
        with open(os.path.join(folder, name, file), "wb") as out:
            out.write(content)
    return os.path.join(folder, name)


def show(known, options, found):
    print(f"{found.runs} runs on {options.files} files of seed {options.seed}")
    for (command, status), count in sorted(found.ends.items()):
        print(f"{command:8} status {status:3} {count:9}")
    seconds, number, command = found.slowest
    where = keep(options.keep, f"slowest-{number}", Case(known, options.seed, number).files)
    print(f"slowest  {seconds:.3f} s: {' '.join(command)}; its files are in {where}")
    for number, fault, command in sorted(found.faults)[:100]:
        where = keep(options.keep, f"found-{number}", Case(known, options.seed, number).files)
        print(f"FOUND    {fault}: {' '.join(command)}; its files are in {where}")
    print(f"{len(found.faults)} findings")
    return 1 if found.faults else 0


def try_all(options):
    known = Known(options.program)
    numbers = range(options.first, options.first + options.files)
    tasks = [(known, options.seed, numbers[i : i + 50]) for i in range(0, len(numbers), 50)]
    found = Found()
    with multiprocessing.get_context("fork").Pool(options.jobs) as pool:
        for part in pool.imap_unordered(share, tasks):
            found.join(part)
    return show(known, options, found)


def try_one(options):
    known = Known(options.program)
    case = Case(known, options.seed, options.one)
    folder = keep(options.keep, f"one-{options.one}", case.files)
    limit_bytes(BYTES)
    runner, bad = Runner(known.program, folder), False
    for command in case.commands:
        ended = runner.run(command)
        fault = fault_of(command, ended) or refusal_fault(case.files, command, ended)
        bad = bad or fault is not None
        print(f"status {ended.status:3} {ended.seconds:.3f} s {' '.join(command)}  {ended.note.decode(errors='replace').strip()}  {fault or ''}")
    print(f"its files are in {folder}")
    return 1 if bad else 0


def try_worst(options):
    limit_bytes(4 << 30)
    over = False
    for name, make in worst.CASES.items():
        if options.names and name not in options.names:
            continue
        files, command = make()
        folder = keep(options.keep, f"worst-{name}", files)
        ended = Runner(options.program, folder, 60).run(command)
        bad = ended.seconds > SECONDS or ended.bytes > BYTES or ended.status < 0
        over = over or bad
        size = sum(len(content) for content in files.values())
        shown = f"{name:16} {size:9} bytes  status {ended.status:3} {ended.seconds:7.2f} s {ended.bytes >> 20:6} MiB  {' '.join(command)}"
        print(shown + ("  OVER" if bad else ""), flush=True)
        for file in (".out", *files):
            os.remove(os.path.join(folder, file))
    return 1 if over else 0


def main():
    parser = argparse.ArgumentParser(add_help=True, usage=__doc__.split("\n\n")[1])
    parser.add_argument("--program", default=forms.PROGRAM)
    parser.add_argument("--files", type=int, default=1000)
    parser.add_argument("--first", type=int, default=0)
    parser.add_argument("--seed", default="1")
    parser.add_argument("--jobs", type=int, default=1)
    parser.add_argument("--keep", default=os.path.join(tempfile.gettempdir(), "jakstab-hostile"))
    parser.add_argument("--one", type=int)
    parser.add_argument("--worst", action="store_true")
    parser.add_argument("names", nargs="*")
    options = parser.parse_args()
    options.program = os.path.abspath(options.program)
    if not os.access(options.program, os.X_OK):
        sys.exit(f"there is no program {options.program}: ./jakstab builds it")
    os.makedirs(options.keep, exist_ok=True)
    if options.worst:
        return try_worst(options)
    return try_all(options) if options.one is None else try_one(options)


if __name__ == "__main__":
    sys.exit(main())
