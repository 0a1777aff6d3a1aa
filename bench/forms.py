"""Files for the scripts beside: executables made from their fields, and stub files."""
import os
import struct

BASE, TABLES = 0x08048000, 0x09000000
PT_LOAD, PT_DYNAMIC = 1, 2
ROOT = os.path.dirname(os.path.dirname(os.path.abspath(__file__)))
PROGRAM = os.path.join(ROOT, "crates", "jakstab_main", "out", "jakstab_main")


def sample(name):
    with open(os.path.join(ROOT, "samples", name), "rb") as file:
        return file.read()


def words(*values):
    return struct.pack("<%dI" % len(values), *(value & 0xFFFFFFFF for value in values))


def elf(segments, body, entry=BASE, kind=2):
    """A file with the body behind its headers. A segment is its type, its bytes' place in the body, its address, its bytes' count,
    its size in memory and its rights."""
    front = 52 + 32 * len(segments)
    out = b"\x7fELF\x01\x01\x01" + bytes(9)
    out += struct.pack("<HHIIIIIHHHHHH", kind, 3, 1, entry, 52, 0, 0, 52, 32, len(segments), 0, 0, 0)
    for type_, place, address, count, size, rights in segments:
        out += words(type_, front + place, address, address, count, size, rights, 1)
    return out + body


def form_e(code, rights=5, size=None):
    return elf([(PT_LOAD, 0, BASE, len(code), len(code) if size is None else size, rights)], code)


def dynamic(**given):
    tags = {"rel": 17, "relsz": 18, "relent": 19, "jmprel": 23, "pltrelsz": 2, "pltrel": 20, "symtab": 6, "syment": 11, "strtab": 5, "strsz": 10}
    return b"".join(words(tags[name], value) for name, value in given.items()) + bytes(8)


def form_d(code, names, rights=5):
    """A file that imports the names, each a pair of its bytes and whether it is weak: its slots are the words from TABLES on."""
    count = len(names)
    rel, symtab = TABLES + 4 * count, TABLES + 12 * count
    strtab = symtab + 16 * (count + 1)
    tables, strings, symbols = bytes(4 * count), b"\0", bytes(16)
    for i, (name, weak) in enumerate(names):
        tables += words(TABLES + 4 * i, (i + 1) << 8 | 7)
        symbols += words(len(strings), 0, 0) + bytes([0x20 if weak else 0x12, 0, 0, 0])
        strings += name + b"\0"
    tables += symbols + strings
    tables += dynamic(jmprel=rel, pltrelsz=8 * count, pltrel=17, symtab=symtab, syment=16, strtab=strtab, strsz=len(strings))
    size, front = len(tables), len(code)
    return elf(
        [
            (PT_LOAD, 0, BASE, front, front, rights),
            (PT_LOAD, front, TABLES, size, size, 6),
            (PT_DYNAMIC, front + size - 64, TABLES + size - 64, 64, 64, 6),
        ],
        code + tables,
    )


def pe(sections, body, base=0x00400000, entry=0x1000, imports=0):
    """A file with the body behind its headers. A section is its address behind the base, its size, its bytes' place in the body,
    their count and its rights: 2 execute, 8 write."""
    front = 200 + 40 * len(sections)
    out = b"MZ" + bytes(58) + words(64) + b"PE\0\0" + struct.pack("<HHIIIHH", 0x14C, len(sections), 0, 0, 0, 112, 0)
    out += words(0x10B, 0, 0, 0, entry, 0, 0, base, 0, 0, 0, 0, 0, 0, 0, front, 0, 0, 0, 0, 0, 0, 0, 2, 0, 0, imports, 40)
    for address, size, place, count, rights in sections:
        out += b"section\0" + words(size, address, count, front + place, 0, 0, 0, 0x40000000 | rights << 28)
    return out + body


def form_p(code):
    data = words(0x2028, 0, 0, 0x2040, 0x2034, 0, 0, 0, 0, 0, 0x2046, 0x80000007, 0, 0x2046, 0x80000007, 0)
    data += b"k.dll\0\0\0ExitProcess\0"
    sections = [(0x1000, len(code), 0, len(code), 2), (0x2000, len(data), len(code), len(data), 8)]
    return pe(sections, code + data, imports=0x2000)


def demo_image(count):
    code = b""
    for i in range(count):
        at = BASE + 64 * i
        code += bytes.fromhex("8B44240483F8027712FF2485") + words(at + 40)
        code += bytes.fromhex("E808000000EB049090EB00EB23B9030000004975FDC39090") + words(at + 16, at + 23, at + 24) + b"\xF4" * 12
    return form_d(code + b"\xFF\x15" + words(TABLES) + b"\xF4", [(b"exit", False)])


MALLOC = b"[stub.malloc]\nargs = 4\ncleans = 4\nreply = \"block\"\nsize_arg = 0\nmay_fail = true\n"
EXIT = b"[stub.exit]\nargs = 4\nreply = \"never\"\n"
EXIT_PROCESS = b"[stub.ExitProcess]\nargs = 4\ncleans = 4\nreply = \"never\"\n"
FILL = b"stack_align = 16\n[stub.fill]\nargs = 4\nreply = \"any\"\nwrites = [{arg = 0, length = 4}]\n"
START_MAIN = b"[stub.__libc_start_main]\nargs = 28\nreply = \"enter\"\nenter_arg = 0\n"

LIBC_MAIN = form_d(
    bytes.fromhex(
        "31ED5E89E183E4F05054526A006A0051566820800408FF1500000009F4909090"
        "5589E583E4F083EC1065A1140000008944240C8B450883F8027707FF248550800408C9C331C0C9C3B801000000C9C390"
        "428004084480040848800408"
    ),
    [(b"__libc_start_main", False)],
)
