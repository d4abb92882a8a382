"""Makes synthetic shared objects: with or without a DT_SONAME and nothing else in them, or with DT_NEEDED entries. `LIBRARY` is one in a file."""

import struct
from pathlib import Path

import tool_modules  # noqa: F401
from image_facts import ABIS, DT_NEEDED, DT_NULL, DT_RPATH, DT_SONAME, DT_STRSZ, DT_STRTAB, ET_DYN, PT_DYNAMIC, PT_LOAD

# A library of x86-64 with the soname libz.so.1, byte for byte as docs/FORMATS.md says of synthetic files.
LIBRARY = Path(__file__).resolve().parent.parent / "crates/ldconfig/data/usr/lib/libz.so.1"


def nameless_library():
    """That library without a DT_SONAME: its only string entry gets an unknown tag."""
    content = bytearray(LIBRARY.read_bytes())
    content[176] = 30
    return content


def elf(abi, soname=None, kind=ET_DYN, eflags=None):
    """A file header, a PT_LOAD of the whole file at 0x1000, a PT_DYNAMIC, its entries, and the strings. e_flags are those of the ABI's row."""
    row = ABIS[abi]
    head, segment, word, align = (64, 56, "Q", 8) if row.width == 2 else (52, 32, "I", 4)
    start, strings = head + 2 * segment, b"\0" if soname is None else b"\0" + soname + b"\0"
    end = start + (3 + (soname is not None)) * 2 * align
    table = [(DT_SONAME, 1)] * (soname is not None) + [(DT_STRTAB, 0x1000 + end), (DT_STRSZ, len(strings)), (DT_NULL, 0)]
    eflags = row.bits if eflags is None else eflags
    made = struct.pack(f"<4s3B9x2HI3{word}I6H", b"\x7fELF", row.width, 1, 1, kind, row.machine, 1, 0, head, 0, eflags, head, segment, 2, 0, 0, 0)
    for segment_type, offset, count, aligned in ((PT_LOAD, 0, end + len(strings), 0x1000), (PT_DYNAMIC, start, end - start, align)):
        at = offset, 0x1000 + offset, 0x1000 + offset, count, count
        made += struct.pack("<2I6Q", segment_type, 4, *at, aligned) if row.width == 2 else struct.pack("<8I", segment_type, *at, 4, aligned)
    return made + b"".join(struct.pack("<2" + word, *pair) for pair in table) + strings


def needing(soname, needed, rpath=None, tag=DT_RPATH):
    """A shared x86-64 object with a DT_SONAME that needs others, and perhaps a DT_RPATH, or with that tag a DT_RUNPATH."""
    names = [soname, *needed] + [rpath] * (rpath is not None)
    offsets, strings = [], b"\0"
    for name in names:
        offsets.append(len(strings))
        strings += name.encode() + b"\0"
    address, dynamic_at, dynamic_size = 0x1000, 64 + 2 * 56, 16 * (len(names) + 3)
    strings_at = dynamic_at + dynamic_size
    size = strings_at + len(strings)
    header = b"\x7fELF" + bytes([2, 1, 1]) + bytes(9) + struct.pack("<HHIQQQIHHHHHH", ET_DYN, ABIS["x86-64"].machine, 1, 0, 64, 0, 0, 64, 56, 2, 0, 0, 0)
    load = struct.pack("<IIQQQQQQ", PT_LOAD, 4, 0, address, address, size, size, 0x1000)
    dynamic = struct.pack("<IIQQQQQQ", PT_DYNAMIC, 4, dynamic_at, dynamic_at + address, dynamic_at + address, dynamic_size, dynamic_size, 8)
    tags = [DT_SONAME] + [DT_NEEDED] * len(needed) + [tag] * (rpath is not None)
    entries = b"".join(struct.pack("<QQ", tag, offset) for tag, offset in zip(tags, offsets))
    entries += struct.pack("<6Q", DT_STRTAB, strings_at + address, DT_STRSZ, len(strings), DT_NULL, 0)
    return header + load + dynamic + entries + strings
