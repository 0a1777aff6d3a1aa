"""The first fault of an image or a stub file by README.md and the layouts of its files, written apart from the program.

The numbers are those of README.md's tables; 0 is no fault.
"""
import re
import struct
import tomllib

LOW, END, MAPPED, TABLE, NAMES = 0x1000, 0xF0000000, 67_108_864, 4_194_304, 65_535
NAME = re.compile(rb"[\x21-\x7e]{1,4096}")


def word(data, at):
    return int.from_bytes(data[at : at + 4], "little")


def half(data, at):
    return int.from_bytes(data[at : at + 2], "little")


def passes(data, offset, size):
    return size > 0 and offset + size > len(data)


class Space:
    """Ranges of memory that share no byte: a low address, the bytes at it, and how many bytes 0 are behind these."""

    def __init__(self, ranges):
        self.ranges = [part for part in ranges if part[2] > 0]

    def bound_fault(self):
        """0, 1 or 2 as a range leaves the space, two share a byte, or too much is mapped; else None."""
        if any(low < LOW or low + size > END for low, _, size in self.ranges):
            return 0
        ordered = sorted((low, low + size) for low, _, size in self.ranges)
        if any(one[1] > two[0] for one, two in zip(ordered, ordered[1:])):
            return 1
        return 2 if sum(size for _, _, size in self.ranges) > MAPPED else None

    def part(self, at, size):
        for low, data, whole in self.ranges:
            if low <= at and at + size <= low + whole:
                return data, at - low
        return None

    def has(self, at, size):
        return size == 0 or self.part(at, size) is not None

    def read(self, at, size):
        found = self.part(at, size)
        if found is None:
            return None
        data, place = found
        return data[place : place + size].ljust(size, b"\0")

    def name(self, at, most):
        """The bytes from there up to a 0, of which there are at most so many with it, or None where they are no name."""
        found = self.part(at, 1)
        if found is None:
            return None
        (data, place), whole = found, next(size for low, held, size in self.ranges if low <= at < low + size)
        most = min(most, 4097, whole - place)
        text, ended, _ = data[place : place + most].ljust(most, b"\0").partition(b"\0")
        return text if ended and NAME.fullmatch(text) else None


def image_fault(data):
    if data[:4] == b"\x7fELF":
        return elf_fault(data)
    return pe_fault(data) if data[:2] == b"MZ" else 200


def elf_header_fault(data):
    if len(data) < 52:
        return 1
    count = half(data, 44)
    tests = [data[4] != 1, data[5] != 1, half(data, 16) not in (2, 3), half(data, 18) != 3]
    tests += [half(data, 42) != 32 or count == 0 or count > 64, passes(data, word(data, 28), 32 * count)]
    return next((n for n, holds in enumerate(tests, 3) if holds), 0)


def elf_fault(data):
    fault = elf_header_fault(data)
    if fault:
        return fault
    bias = 0x400000 if half(data, 16) == 3 else 0
    headers = [struct.unpack_from("<8I", data, word(data, 28) + 32 * i) for i in range(half(data, 44))]
    loads = [header for header in headers if header[0] == 1]
    if any(passes(data, header[1], header[4]) for header in loads):
        return 9
    if any(header[4] > header[5] for header in loads):
        return 10
    space = Space([(bias + header[2], data[header[1] : header[1] + header[4]], header[5]) for header in loads])
    fault = space.bound_fault()
    if fault is not None:
        return 11 + fault
    section = next((header for header in headers if header[0] == 2), None)
    return dynamic_fault(data, space, bias, section) if section else 0


def dynamic_fault(data, space, bias, section):
    if passes(data, section[1], section[4]):
        return 14
    tags = {}
    for at in range(section[1], section[1] + section[4] - 7, 8):
        if word(data, at) == 0:
            break
        tags[word(data, at)] = word(data, at + 4)
    if tags.get(11, 16) != 16 or tags.get(19, 8) != 8 or tags.get(20, 17) != 17:
        return 14
    relocations = b""
    for address, size in ((17, 18), (23, 2)):
        size = tags.get(size, 0)
        if size % 8 or size > TABLE or size and address not in tags:
            return 14
        table = space.read(bias + tags[address], size) if size else b""
        if table is None:
            return 14
        relocations += table
    return walk_fault(space, bias, tags, relocations)


def walk_fault(space, bias, tags, relocations):
    names = set()
    for at in range(0, len(relocations), 8):
        offset, kind = word(relocations, at), relocations[at + 4]
        fault = relocation_fault(space, bias, tags, names, offset, kind, word(relocations, at + 4) >> 8) if kind else 0
        if fault:
            return fault
    return 0


def relocation_fault(space, bias, tags, names, offset, kind, index):
    symbol = bytes(16)
    if kind in (1, 2, 5, 6, 7):
        if not {5, 6, 10} <= tags.keys():
            return 14
        symbol = space.read(bias + (tags[6] + 16 * index) % 2**32, 16)
        if symbol is None:
            return 14
    if not space.has((bias + offset) % 2**32, word(symbol, 8) if kind == 5 else 4):
        return 15
    if kind not in (1, 2, 6, 7) or half(symbol, 14) or symbol[12] % 16 not in (0, 2):
        return 0
    start = word(symbol, 0)
    name = space.name(bias + (tags[5] + start) % 2**32, tags[10] - start) if tags[10] > start else None
    if name is None:
        return 16
    names.add(name)
    return 17 if len(names) > NAMES else 0


def pe_fault(data):
    if len(data) < 64:
        return 101
    at = word(data, 0x3C)
    if passes(data, at, 24) or data[at : at + 4] != b"PE\0\0":
        return 103
    if half(data, at + 4) != 0x14C:
        return 104
    size, count, optional = half(data, at + 20), half(data, at + 6), at + 24
    if size < 96 or passes(data, optional, size) or half(data, optional) != 0x10B:
        return 105
    if count == 0 or count > 96 or passes(data, optional + size, 40 * count):
        return 106
    base = word(data, optional + 28)
    front = min(word(data, optional + 60), len(data))
    ranges = [(base, data[:front], front)]
    for i in range(count):
        virtual, address, raw, place = struct.unpack_from("<4I", data, optional + size + 40 * i + 8)
        virtual = virtual or raw
        used = min(raw, virtual)
        if passes(data, place, used):
            return 107
        ranges.append((base + address, data[place : place + used], virtual))
    space = Space(ranges)
    fault = space.bound_fault()
    if fault is not None:
        return 108 + fault
    directory = word(data, optional + 104) if word(data, optional + 92) >= 2 and size >= 112 else 0
    return imports_fault(space, base, (base + directory) % 2**32) if directory else 0


def imports_fault(space, base, at):
    count = 0
    while True:
        descriptor = space.read(at, 20)
        if descriptor is None:
            return 111
        if not any(descriptor):
            return 0
        library = space.name((base + word(descriptor, 12)) % 2**32, 4097)
        if library is None:
            return 112
        slots = word(descriptor, 16)
        if slots == 0:
            return 111
        listed = (base + (word(descriptor, 0) or slots)) % 2**32
        fault, count = thunks_fault(space, base, library, listed, (base + slots) % 2**32, count)
        if fault:
            return fault
        at += 20


def thunks_fault(space, base, library, listed, slot, count):
    while True:
        thunk = space.read(listed, 4)
        if thunk is None:
            return 111, count
        value = word(thunk, 0)
        if value == 0:
            return 0, count
        count += 1
        if count > NAMES:
            return 113, count
        name = library + b"#%d" % (value & 0xFFFF) if value >> 31 else space.name((base + value + 2) % 2**32, 4097)
        if name is None or len(name) > 4096:
            return 112, count
        if not space.has(slot, 4):
            return 111, count
        listed, slot = listed + 4, slot + 4


# Of a key: the type of its value, the range that its value is in, the reply that it belongs to, and whether it has to be there.
INDEX = object()
SIZES, LENGTHS, BYTES = range(1, MAPPED + 1), range(0, MAPPED + 1), range(0, 65, 4)
REPLIES = ("any", "number", "block", "never", "enter")
STUB = {
    "args": (int, BYTES, None, True),
    "cleans": (int, BYTES, None, False),
    "reply": (str, REPLIES, None, True),
    "number": (int, range(2**32), "number", True),
    "size": (int, SIZES, "block", False),
    "size_arg": (int, INDEX, "block", False),
    "zeroed": (bool, (False, True), "block", False),
    "may_fail": (bool, (False, True), "block", False),
    "enter_arg": (int, INDEX, "enter", True),
    "writes": (list, None, None, False),
}
WRITE = {"arg": (int, INDEX, None, True), "length": (int, LENGTHS, None, False), "length_arg": (int, INDEX, None, False)}
TOP = {"stack_align": (int, [2**n for n in range(2, 13)], None, False), "stub": (dict, None, None, False)}
CHOICES = (("size", "size_arg"), ("length", "length_arg"))


def table_faults(rules, table, reply, args):
    """The numbers of the faults of a table by itself."""
    out = set()
    if table.keys() - rules.keys():
        out.add(2)
    for key, (kind, among, owner, needed) in rules.items():
        value = table.get(key)
        if value is None:
            if needed and owner in (None, reply):
                out.add(3)
            continue
        if type(value) is not kind or kind is list and not all(type(item) is dict for item in value):
            out.add(3)
        elif kind is list and len(value) > 4 or among is INDEX and not 0 <= value < args // 4:
            out.add(4)
        elif among not in (None, INDEX) and value not in among:
            out.add(4)
        if owner not in (None, reply):
            out.add(5)
    for pair in CHOICES:
        made = sum(key in table for key in pair)
        if pair[0] in rules and made == 0 and (rules is WRITE or reply == "block"):
            out.add(3)
        if pair[0] in rules and made == 2:
            out.add(5)
    return out


def stub_faults(name, stub):
    if not NAME.fullmatch(name.encode()):
        return {2}
    if type(stub) is not dict:
        return {3}
    args = stub["args"] if type(stub.get("args")) is int else 0
    out = table_faults(STUB, stub, stub.get("reply"), args)
    writes = stub.get("writes")
    for item in writes if type(writes) is list and all(type(item) is dict for item in writes) else []:
        out |= table_faults(WRITE, item, None, args)
    return out


def are_small(value):
    """Whether every number is one of 64 bits, as others are read in different ways."""
    if type(value) is int:
        return -(2**63) <= value < 2**63
    return all(map(are_small, value.values() if type(value) is dict else value)) if type(value) in (dict, list) else True


def stubs_fault(text):
    """The number of the fault, or None where this reader of TOML 1.0 refuses the text, which may be of TOML 1.1."""
    try:
        table = tomllib.loads(text.decode())
    except (ValueError, RecursionError):
        return None
    if not are_small(table):
        return None
    tables = [table_faults(TOP, table, None, 0)]
    if not tables[0]:
        stubs = table.get("stub", {})
        tables += [stub_faults(name, stubs[name]) for name in sorted(stubs, key=str.encode)]
    return next((min(faults) for faults in tables if faults), 0)
