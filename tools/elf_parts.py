"""Finds the parts of a file that a reader of its ELF headers, dynamic section and string table can look at, and reads a library's soname there."""

import os
import struct
from collections import namedtuple

from image_facts import DT_NULL, DT_SONAME, DT_STRSZ, DT_STRTAB, ET_DYN, PT_DYNAMIC, PT_LOAD, abi_in

# The first part of each file, which is always taken.
BEGIN = 4096
# The longest soname that is read.
LONGEST_SONAME = 4096
# A file with more candidates for its string table is taken whole.
MOST_TABLES = 64
# So is a file with a longer dynamic section.
LONGEST_SECTION = 2**24
# By the class: the fields of the file header with the offset, size and number of program headers; a program header; its size; a dynamic entry.
LAYOUTS = {1: ("<28xI10xHH", "<III4xI", 32, "<II"), 2: ("<32xQ14xHH", "<I4xQQ8xQ", 56, "<QQ")}

# A shared object: its ABI (None if no cache is built for it), and its DT_SONAME, perhaps empty.
Library = namedtuple("Library", "abi soname")


def segments_of(opened, layout):
    """The program headers as (type, offset, address, length), and the part in which they are."""
    header, one, size, _ = layout
    at, each, count = struct.unpack_from(header, os.pread(opened, BEGIN, 0))
    if each != size:
        return [], (at, at + each * count)
    table = os.pread(opened, size * count, at)
    return [struct.unpack_from(one, table, size * number) for number in range(len(table) // size)], (at, at + size * count)


def entries_of(opened, at, length, entry):
    """The entries of a dynamic section."""
    if length > LONGEST_SECTION:
        raise ValueError("a long dynamic section")
    section = os.pread(opened, length, at)
    return struct.iter_unpack(entry, section[: len(section) - len(section) % struct.calcsize(entry)])


def looked_at(opened):
    """Parts of an open file, as (start, end), that contain everything such a reader looks at. If there are several dynamic sections, string
    tables or segments for one address, each is taken. Raises ValueError if the parts can't be found."""
    begin, size = os.pread(opened, BEGIN, 0), os.fstat(opened).st_size
    layout = LAYOUTS.get(begin[4] if len(begin) >= 64 else 0)
    if not begin.startswith(b"\x7fELF") or layout is None or begin[5] != 1:
        return [(0, BEGIN)]
    segments, part = segments_of(opened, layout)
    parts, entries = [(0, BEGIN), part], []
    for kind, at, _, length in segments:
        if kind == PT_DYNAMIC and at < size:
            entries += entries_of(opened, at, min(length, size - at), layout[3])
            parts.append((at, at + length))
    starts = {value for tag, value in entries if tag == DT_STRTAB}
    length = max((value for tag, value in entries if tag == DT_STRSZ), default=0)
    loads = {(at, address) for kind, at, address, _ in segments if kind == PT_LOAD}
    if len(starts) * len(loads) > MOST_TABLES:
        raise ValueError("too many candidates for the string table")
    tables = [start - address + at for start in starts for at, address in loads if address <= start]
    return parts + [(table, table + length) for table in tables]


def library_of(opened):
    """The ABI and the DT_SONAME of an open file that is a shared object; None for another file."""
    try:
        begin = os.pread(opened, BEGIN, 0)
        (kind,) = struct.unpack_from("<H", begin, 16)
        layout = LAYOUTS.get(begin[4])
        if not begin.startswith(b"\x7fELF") or layout is None or begin[5] != 1 or kind != ET_DYN:
            return None
        segments, _ = segments_of(opened, layout)
        at, length = next((at, length) for kind, at, _, length in segments if kind == PT_DYNAMIC)
        dynamic = {}
        for tag, value in entries_of(opened, at, length, layout[3]):
            if tag == DT_NULL:
                break
            dynamic.setdefault(tag, value)
        if DT_SONAME not in dynamic:
            return Library(abi_in(begin), b"")
        place = dynamic[DT_STRTAB] + dynamic[DT_SONAME]
        start = next(place - address + at for kind, at, address, length in segments if kind == PT_LOAD and address <= place < address + length)
        return Library(abi_in(begin), os.pread(opened, LONGEST_SONAME, start).partition(b"\0")[0])
    except (OSError, LookupError, OverflowError, StopIteration, ValueError, struct.error):
        return None
