"""The judge of tests/real_sections.sh. It shares nothing with ours: neither code nor the list of flags.

    section_report.py said          what `llvm-readobj --sections` printed (standard input), as a section report
    section_report.py patch DIR     for each PE file named on standard input a copy in DIR, with other names and flags
"""

import itertools
import pathlib
import re
import struct
import sys

# The order is that of the report. readobj has two names for one bit, MEM_16BIT and MEM_PURGEABLE.
LETTERS = [
    ("CNT_CODE", "c", "code"),
    ("CNT_INITIALIZED_DATA", "d", "initialized data"),
    ("CNT_UNINITIALIZED_DATA", "z", "uninitialized data"),
    ("MEM_EXECUTE", "E", "execute"),
    ("MEM_READ", "R", "read"),
    ("MEM_WRITE", "W", "write"),
    ("MEM_SHARED", "S", "shared"),
    ("MEM_DISCARDABLE", "D", "discardable"),
    ("MEM_NOT_CACHED", "K", "not cached"),
    ("MEM_NOT_PAGED", "P", "not paged"),
    ("LNK_OTHER", "o", "other"),
    ("LNK_INFO", "i", "info"),
    ("LNK_REMOVE", "r", "removed"),
    ("LNK_COMDAT", "m", "comdat"),
    ("NO_DEFER_SPEC_EXC", "x", "defer speculative exceptions"),
    ("GPREL", "g", "global pointer relative"),
    ("MEM_PURGEABLE", "u", "purgeable"),
    ("MEM_LOCKED", "l", "locked"),
    ("MEM_PRELOAD", "p", "preload"),
    ("LNK_NRELOC_OVFL", "n", "relocations overflow"),
]
NO_LETTER = re.compile(r"TYPE_NO_PAD|TYPE_NOLOAD|SCALE_INDEX|MEM_16BIT|ALIGN_\d+BYTES")
# readobj has no name for this bit; the number that it prints beside the names shows it.
NAMELESS = {0x4000: "NO_DEFER_SPEC_EXC"}

SECTION = re.compile(
    rb"  Section {\n    Number: (\d+)\n"
    # A name may hold anything, also a line's end: its bytes are the last in brackets.
    rb"    Name:.*? \(((?:[0-9A-F]{2} ){7}[0-9A-F]{2})\)\n"
    rb"    VirtualSize: 0x([0-9A-F]+)\n    VirtualAddress: 0x([0-9A-F]+)\n    RawDataSize: (\d+)\n"
    rb"(?:    \w+: \w+\n){5}    Characteristics \[ \(0x([0-9A-F]+)\)\n((?:      [^\n]*\n)*)    \]\n  }\n",
    re.DOTALL,
)


def shown(name):
    try:
        text = name.split(b"\0")[0].decode("utf-8")
    except UnicodeDecodeError:
        return name.hex().upper()
    short = {"\t": r"\t", "\n": r"\n", "\r": r"\r", "\\": r"\\", '"': r"\"", "'": r"\'"}
    return "".join(short.get(c) or (c if c.isprintable() else r"\u{%x}" % ord(c)) for c in text)


def flags_said(number, lines):
    flags = set(re.findall(r"IMAGE_SCN_(\w+) ", lines))
    flags |= {name for bit, name in NAMELESS.items() if number & bit}
    unknown = [flag for flag in flags - {name for name, _, _ in LETTERS} if not NO_LETTER.fullmatch(flag)]
    if unknown:
        sys.exit(f"section_report.py: readobj has flags that it does not know: {unknown}")
    return flags


def said():
    printed = sys.stdin.buffer.read()
    found = SECTION.findall(printed)
    report, occur = ["no.   name             address  size     raw size flags"], set()
    for number, name, size, address, raw_size, characteristics, lines in found:
        flags = flags_said(int(characteristics, 16), lines.decode())
        letters = "".join(letter for flag, letter, _ in LETTERS if flag in flags)
        occur |= flags
        line = "%-5d %-16s %08X %08X %08X %s" % (
            int(number), shown(bytes.fromhex(name.decode())),
            int(address, 16), int(size, 16), int(raw_size), letters)
        report.append(line.rstrip())
    legend = [f"{letter} {words}" for flag, letter, words in LETTERS if flag in occur]
    if legend:
        report.append("flags: " + ", ".join(legend))
    report.append(f"sections {len(found)}")
    sys.stdout.buffer.write("\n".join(report + [""]).encode())


# No UTF-8, UTF-8 of each length, what a terminal would obey, and bytes behind a zero.
NAMES = [
    b"\xc1\x80", b"\xed\xa0\x80", b"\xf4\x90\x80\x80", b"\xf5\x80\x80\x80", b"\xc0\xaf", b"\xe0\x80\x80",
    b"\xf0\x80\x80\x80", b"\x80", b"\xff\xfe", b"abcdefg\xc3", b"abcde\xf0\x9f\x98", b"\xe2\x82\0\xac",
    b"a\xc3\0\xaa\0\0\0\xbb", "ä".encode(), "€".encode(), "😀😀".encode(), "aä€b".encode(), "äöüß".encode(),
    "\u202e\u009b".encode(), "\U0010ffff".encode(), b"\x1b[2J\"'", b"\n) (\\", b"ab\0cd\xff\0\1", b"",
    b"\0\xc1behind", b"DEADBEEF",
]
# Each bit alone, all, and none.
FLAGS = [1 << bit for bit in range(32)] + [0xFFFFFFFF, 0]


def patch(directory):
    names, flags = itertools.cycle(NAMES), itertools.cycle(FLAGS)
    for at, path in enumerate(sys.stdin.read().splitlines()):
        file = bytearray(pathlib.Path(path).read_bytes())
        (header,) = struct.unpack_from("<I", file, 0x3C)
        sections, optional = struct.unpack_from("<H12xH", file, header + 6)
        for number in range(sections):
            place = header + 24 + optional + 40 * number
            if number % 2 == 0:
                struct.pack_into("8s", file, place, next(names))
            else:
                struct.pack_into("<I", file, place + 36, next(flags))
        pathlib.Path(directory, f"{at:02}-{pathlib.Path(path).name}").write_bytes(file)


if sys.argv[1:] == ["said"]:
    said()
elif sys.argv[1:2] == ["patch"] and len(sys.argv) == 3:
    patch(sys.argv[2])
else:
    sys.exit(__doc__)
