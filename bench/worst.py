"""Files that cost the program most, as far as they are known: for each a name, and what makes its files and its command."""
from forms import BASE, PT_DYNAMIC, PT_LOAD, TABLES, dynamic, elf, form_d, form_e, pe, words

TABLE = 4_194_304


def listed(image, stubs=None):
    if stubs is None:
        return {"image": image}, ["list", "image"]
    return {"image": image, "stubs": stubs}, ["list", "image", "--stubs", "stubs"]


def recovered(image, *options, stubs=None):
    files = {"image": image} if stubs is None else {"image": image, "stubs": stubs}
    return files, ["recover", "image", *options, *([] if stubs is None else ["--stubs", "stubs"])]


def with_tables(code, tables, section, more=()):
    """A file with the code, the tables from TABLES on and a dynamic section, and further segments of one byte."""
    front, size = len(code), len(tables)
    segments = [(PT_LOAD, 0, at, 1, 1, 6) for at in more]
    segments += [(PT_LOAD, 0, BASE, front, front, 5), (PT_LOAD, front, TABLES, size, size, 6)]
    segments += [(PT_DYNAMIC, front + size, 0, len(section), len(section), 6)]
    return elf(segments, code + tables + section)


def relocated(code, rel, symbols, strings, more=()):
    """The same where both relocation tables are one and the same."""
    tables = bytes(8) + rel + symbols + strings
    at = TABLES + 8 + len(rel)
    section = dynamic(rel=TABLES + 8, relsz=len(rel), jmprel=TABLES + 8, pltrelsz=len(rel), symtab=at, strtab=at + len(symbols), strsz=len(strings))
    return with_tables(code, tables, section, more)


def elf_long_name():
    """1,048,576 relocations, each of which looks up the same name of 4,096 bytes."""
    return listed(relocated(b"\xf4", words(TABLES, 0x107) * (TABLE // 8), bytes(16) + words(1, 0, 0, 0x12), b"\0" + b"a" * 4096 + b"\0"))


def elf_many_names():
    """65,535 names of about 4,060 bytes, which end alike in 4 MB of the file."""
    starts = [4097 * (i // 64) + i % 64 for i in range(65_535)]
    blocks = b"".join(b"a" * 4092 + b"%04x\0" % i for i in range(1024))
    symbols = bytes(16) + b"".join(words(start, 0, 0, 0x12) for start in starts)
    return listed(relocated(b"\xf4", b"".join(words(TABLES, (i + 1) << 8 | 7) for i in range(65_535)), symbols, blocks))


def elf_many_segments():
    """1,048,576 relocations in the last of 63 segments, each of which reads a symbol and a word there."""
    rel = words(TABLES, 0x101) * (TABLE // 8)
    return listed(relocated(b"\xf4", rel, bytes(16) + words(0, 1, 0, 0x10012), b"\0", [0x10000 + 16 * i for i in range(61)]))


def elf_unset():
    """1,048,576 unset ranges, and the list that joins them."""
    rel = b"".join(words(TABLES + 8 + 8 * i, 10) for i in range(TABLE // 8))
    return listed(relocated(b"\xf4", rel, b"", b""))


def elf_unset_code():
    """The same ranges, and 1,000 instructions of which each byte is looked up among them."""
    rel = b"".join(words(TABLES + 8 + 8 * i, 10) for i in range(TABLE // 8))
    return recovered(relocated(b"\x90" * 1000 + b"\xf4", rel, b"", b""), "--budget=1000")


def elf_dynamic():
    """A dynamic section of 16 MB."""
    section = words(30, 0) * 2_000_000
    return listed(with_tables(b"\xf4", bytes(8), section))


def elf_zeros():
    """64 MiB that are mapped by a file of 86 bytes."""
    return recovered(form_e(b"\xeb\xfe", size=67_108_864))


def pe_ordinals():
    """65,534 names of 4,096 bytes, made of the name of one library and a number."""
    thunks = b"".join(words(0x80000000 | i) for i in range(65_534)) + bytes(4)
    data = words(0x1028, 0, 0, 0x1028 + len(thunks), 0x1028) + bytes(20) + thunks + b"a" * 4090 + b"\0"
    return listed(pe([(0x1000, len(data), 0, len(data), 8)], data, imports=0x1000))


def pe_descriptors():
    """3 million import descriptors in 95 sections of the same bytes, each of which names a library of 4,096 bytes and no function."""
    name = 0x1000
    first = b"a" * 4096 + b"\0" * 8
    count = 655_360 // 20
    table = words(0, 0, 0, name, name + 4100) * count
    sections = [(0x1000, len(first), 0, len(first), 8)]
    sections += [(0x10000 + len(table) * i, len(table), len(first), len(table), 8) for i in range(94)]
    sections += [(0x10000 + len(table) * 94, 20, 0, 0, 8)]
    return listed(pe(sections, first + table, imports=0x10000))


def stub_long_header():
    """A stub file of 1 MiB, whose header has 80 long words, and behind it as many lines as there is room for."""
    header = b"[" + b".".join([b"a" * 6000] * 79) + b"]\n"
    lines = b"".join(b"%x=1\n" % i for i in range(65_536))
    return listed(form_e(b"\xf4"), (header + lines)[:1_048_000].rsplit(b"\n", 1)[0] + b"\n")


def stub_nested():
    """A stub file of 1 MiB of opening brackets."""
    return listed(form_e(b"\xf4"), b"a = " + b"[" * 1_048_000)


def stub_many():
    """20,000 stubs, and as many imports."""
    names = [b"f%05d" % i for i in range(20_000)]
    return listed(form_d(b"\xf4", [(name, False) for name in names]), b"".join(b"[stub.%s]\nargs=0\nreply='any'\n" % name for name in names))


def stores():
    """3,000 words of memory that become known, one after another."""
    code = b"".join(b"\xc7\x05" + words(TABLES + 4 * i, i) for i in range(3_000)) + b"\xf4"
    return recovered(two_segments(code, 16_384))


def two_segments(code, size):
    return elf([(PT_LOAD, 0, BASE, len(code), len(code), 5), (PT_LOAD, 0, TABLES, 0, size, 6)], code)


def unknown_stores():
    """20,000 bytes of memory, no two beside one another, that become unknown one after another, and a jump to itself."""
    code = b"".join(b"\xa2" + words(TABLES + 2 * i) for i in range(20_000)) + b"\xeb\xfe"
    return recovered(two_segments(code, 65_536))


def compared(*most):
    """Code that compares registers with numbers, one after another, and goes on where each is at most its own."""
    code, left = b"", len(most)
    for register, number in enumerate(most):
        left -= 1
        code += bytes([0x81, 0xF8 + register]) + words(number) + b"\x0f\x87" + words(12 * left + 1)
    return code + b"\x90\xf4"


def product_of_values():
    """Three registers with 31 values each: 29,791 rows at one address."""
    return recovered(form_e(compared(30, 30, 30)))


def product_of_more():
    """Four registers with 31 values each: 923,521 rows at one address, in a file of 134 bytes."""
    return recovered(form_e(compared(30, 30, 30, 30)))


def product_of_many():
    """One register with 100 values and one with 1,023, by 202 rows that are expanded."""
    return recovered(form_e(compared(99, 1022)), "--k=1024", "--budget=1000")


def blocks():
    """5,000 calls that each hand out a block of memory of their own."""
    stub = b"[stub.malloc]\nargs = 4\ncleans = 4\nreply = \"block\"\nsize_arg = 0\n"
    return recovered(form_d(b"\x6a\x08\xff\x15\0\0\0\x09" * 5_000 + b"\xf4", [(b"malloc", False)]), stubs=stub)


def long_import():
    """20,000 calls of an imported function whose name has 4,096 bytes."""
    name = b"a" * 4096
    stub = b"[stub.%s]\nargs = 0\nreply = \"any\"\n" % name
    return recovered(form_d(b"\xff\x15\0\0\0\x09" * 20_000 + b"\xf4", [(name, False)]), stubs=stub)


def decoded():
    """100,000 instructions out of 16 MB."""
    return {"image": form_e(b"\x90" * 16_000_000)}, ["decode", "image", "%08X" % BASE, "100000"]


START = b"regs 00000000 00000000 00000000 00000000 BFFF0000 00000000 00000000 00000000\nflags 000000\nbases 10000000 20000000\n"


def run_unset():
    """A run over 1,000 relocations that each leave the same 50 MB unknown. A program that knows no `run` has status 2."""
    rel, symbol = words(TABLES, 0x105) * 1_000, words(0, 0, 50_000_000, 0x10011)
    tables = rel + bytes(16) + symbol + b"\0" * 8
    at = TABLES + len(rel)
    section = dynamic(rel=TABLES, relsz=len(rel), symtab=at, strtab=at + 32, strsz=1)
    segments = [(PT_LOAD, 0, BASE, 1, 1, 5), (PT_LOAD, 1, TABLES, len(tables), 60_000_000, 6), (PT_DYNAMIC, 1 + len(tables), 0, len(section), len(section), 6)]
    image = elf(segments, b"\xf4" + tables + section)
    return {"image": image, "start": b"jakstab-start 1\n" + START + b"end\n"}, ["run", "image", "start", "0"]


def run_fills():
    """A run over 524,288 unset ranges, whose start file fills each byte of the last of them, 1,000 times."""
    rel = b"".join(words(TABLES + 8 + 8 * i, 10) for i in range(TABLE // 8))
    fill = b"fill %08X 00000000\n" % (TABLES + TABLE)
    return {"image": relocated(b"\xf4", rel, b"", b""), "start": b"jakstab-start 1\n" + START + fill * 1_000 + b"end\n"}, ["run", "image", "start", "0"]


def replay_long():
    """A replay of a record without steps in an automaton of 60 MB, whose each line is an edge."""
    count = 1_400_000
    edges = b"".join(b"edge %08X %08X 90 nop\n" % (BASE, n) for n in range(count))
    places = b"".join(b"loc %08X\n" % n for n in range(count))
    text = b"jakstab-automaton 1\nentry %08X\n" % BASE + places + b"loc %08X\n" % BASE + edges + b"end %d %d 0\n" % (count + 1, count)
    files = {"image": form_e(b"\xf4"), "automaton": text, "record": b"jakstab-record 1\n" + START + b"end steps\n"}
    return files, ["replay", "image", "automaton", "record"]


CASES = {make.__name__: make for make in (elf_long_name, elf_many_names, elf_many_segments, elf_unset, elf_unset_code, elf_dynamic, elf_zeros)}
CASES |= {make.__name__: make for make in (pe_ordinals, pe_descriptors, stub_long_header, stub_nested, stub_many, decoded)}
CASES |= {make.__name__: make for make in (stores, unknown_stores, product_of_values, product_of_many, product_of_more, blocks, long_import)}
CASES |= {make.__name__: make for make in (run_unset, run_fills, replay_long)}
