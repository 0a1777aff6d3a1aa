#!/usr/bin/env python3
"""Refuses the program each of its growths of memory in turn, and demands the whole text or the answer that memory is wanting.

    bench/no_memory.py [PROGRAM]

PROGRAM is the proved and built program, crates/jakstab_main/out/jakstab_main where none is given (`./jakstab` builds it).
Each command below is run once for each call of `malloc` and `realloc` that it makes: twice, where that call alone is refused,
and where it and all later ones are. The calls are refused by a library of a few lines, which `cc` makes, put before that of C.
A run is to end with status 0 and the text of a run that is refused nothing, or with status 7, `jakstab: no memory` and no text.
Printed are how many growths each command makes and how its runs ended; the status is 1 where one ended otherwise.
"""
import collections
import os
import resource
import subprocess
import sys
import tempfile

import forms

REFUSING = r"""
#include <stdlib.h>
#include <unistd.h>
extern void *__libc_malloc(size_t);
extern void *__libc_realloc(void *, size_t);
static long first, last, made;
__attribute__((constructor)) static void start(void) {
    const char *f = getenv("REFUSE_FROM"), *l = getenv("REFUSE_TO");
    made = 0;
    first = f ? atol(f) : 0;
    last = l ? atol(l) : 0;
}
static int refused(void) {
    if (first == 0 || ++made < first || made > last) return 0;
    if (made == first && write(9, "x", 1) != 1) _exit(99);
    return 1;
}
void *malloc(size_t n) { return refused() ? NULL : __libc_malloc(n); }
void *realloc(void *p, size_t n) { return refused() ? NULL : __libc_realloc(p, n); }
"""
MOST, SECONDS = 1 << 40, 5


def commands(folder):
    """Words of commands over files that are made in the folder."""
    files = {
        "greet.elf": forms.sample("greet.elf"),
        "greet.toml": forms.sample("greet.toml"),
        "square.exe": forms.sample("square.exe"),
        "main.elf": forms.LIBC_MAIN,
        "main.toml": forms.START_MAIN,
    }
    for name, content in files.items():
        with open(os.path.join(folder, name), "wb") as file:
            file.write(content)
    return [
        ["list", "greet.elf", "--stubs", "greet.toml"],
        ["list", "square.exe"],
        ["decode", "greet.elf", "080481E0", "10"],
        ["recover", "--stubs", "greet.toml", "greet.elf"],
        ["recover", "--stubs", "main.toml", "main.elf"],
        ["recover", "--stubs=main.toml", "--domain=interval", "--text=1", "main.elf"],
        ["demo", "3"],
    ]


class Refuser:
    def __init__(self, program, folder):
        self.program, self.folder, self.library = program, folder, os.path.join(folder, "refusing.so")
        source = os.path.join(folder, "refusing.c")
        with open(source, "w") as file:
            file.write(REFUSING)
        subprocess.run(["cc", "-O2", "-shared", "-fPIC", "-o", self.library, source], check=True)

    def run(self, words, first, last):
        """How a run ended whose growths from the first to the last number are refused, and whether it came to the first."""
        ours, theirs = os.pipe()
        environment = {"LD_PRELOAD": self.library, "REFUSE_FROM": str(first), "REFUSE_TO": str(last)}
        streams = [(os.POSIX_SPAWN_OPEN, 0, os.devnull, os.O_RDONLY, 0), (os.POSIX_SPAWN_DUP2, theirs, 9)]
        for number, name in ((1, "out"), (2, "note")):
            streams.append((os.POSIX_SPAWN_OPEN, number, os.path.join(self.folder, name), os.O_WRONLY | os.O_CREAT | os.O_TRUNC, 0o600))
        child = os.posix_spawn(self.program, [self.program, *words], environment, file_actions=streams)
        os.close(theirs)
        try:
            resource.prlimit(child, resource.RLIMIT_CPU, (SECONDS, SECONDS + 1))
        except ProcessLookupError:
            pass
        _, status = os.waitpid(child, 0)
        came = os.read(ours, 1) == b"x"
        os.close(ours)
        held = [open(os.path.join(self.folder, name), "rb").read() for name in ("out", "note")]
        return (os.waitstatus_to_exitcode(status), *held), came


def is_listed(ended, whole):
    return ended == whole or ended == (7, b"", b"jakstab: no memory\n")


def try_command(refuser, words):
    """How the runs of a command ended, by their statuses, and those that ended as they must not."""
    whole, _ = refuser.run(words, 0, 0)
    if whole[0] != 0:
        return collections.Counter(), 0, [(0, 0, whole)]
    ends, wrong, number = collections.Counter(), [], 1
    while True:
        for last in (number, MOST):
            ended, came = refuser.run(words, number, last)
            if not came:
                return ends, number - 1, wrong
            ends[ended[0]] += 1
            if not is_listed(ended, whole):
                wrong.append((number, last, ended))
        number += 1


def main():
    program = os.path.abspath(sys.argv[1]) if len(sys.argv) > 1 else forms.PROGRAM
    if not os.access(program, os.X_OK):
        sys.exit(f"there is no program {program}: ./jakstab builds it")
    good = True
    with tempfile.TemporaryDirectory() as folder:
        all_words = commands(folder)
        os.chdir(folder)
        refuser = Refuser(program, folder)
        for words in all_words:
            ends, count, wrong = try_command(refuser, words)
            shown = ", ".join(f"{count} with status {status}" for status, count in sorted(ends.items()))
            print(f"{' '.join(words)}: {count} growths; {shown}", flush=True)
            for first, last, (status, out, note) in wrong[:10]:
                print(f"  WRONG: growth {first}{' and all later ones' if last == MOST else ''}: status {status}, {len(out)} bytes, {note[:60]!r}")
            good = good and not wrong
    return 0 if good else 1


if __name__ == "__main__":
    sys.exit(main())
