"""A plain reader and writer of auxiliary caches: cached records of library files, by the identities of the files.

It is written from docs/FORMATS.md and shares nothing with the program. Cached records are a dict from identities (device, inode, ctime,
size) to what the files are: an ABI, and a DT_SONAME or None; or the defect of a file that isn't a library, as in the report's lines.
"""

import struct
import sys

sys.dont_write_bytecode = True
import tool_modules  # noqa: E402,F401
from image_facts import ABIS, DT_NEEDED, DT_RPATH, DT_RUNPATH, DT_SONAME, ET_DYN  # noqa: E402
from image_facts import AUX_MAGIC as MAGIC  # noqa: E402
from image_facts import OLD_AUX_MAGIC as OLD_MAGIC  # noqa: E402
from mtree_model import is_name  # noqa: E402

HEADER, RECORD = len(MAGIC) + 8, 48
ABI_OF = {row.flags: abi for abi, row in ABIS.items()}

# Each defect by its number, with the values that it may have; None if it has no value.
DEFECTS = [
    ("NotElf", None), ("TooShort", set(range(64))), ("BadClass", set(range(256)) - {1, 2}), ("BadData", set(range(256)) - {1}),
    ("BadMachine", range(65536)), ("NotShared", set(range(65536)) - {ET_DYN}), ("BadPhdrs", None), ("NoDynamic", None), ("DynOutside", None),
    ("NoStrtab", None), ("OutsideLoad", None), ("BadString", {DT_NEEDED, DT_SONAME, DT_RPATH, DT_RUNPATH}), ("BadSoname", None),
]  # fmt: skip


class Damaged(Exception):
    """The first place at which a file is corrupt."""

    def __init__(self, at):
        super().__init__(at)
        self.at = at


def record_at(aux, index):
    """The identity, the flags, the offset of the soname, the number of the defect, and its value of a record."""
    inode, ctime, size, device, *rest = struct.unpack_from("<4QiIII", aux, HEADER + RECORD * index)
    return (device, inode, ctime, size), *rest


def defect_of(flags, offset, defect, value):
    """The defect that these numbers of a record mean, or None if they mean none."""
    if flags or offset or not 1 <= defect <= len(DEFECTS):
        return None
    name, values = DEFECTS[defect - 1]
    if values is None:
        return None if value else name
    return f"{name} {value}" if value in values else None


def library_of(strings, flags, offset, defect, value):
    """The library that these numbers of a record mean, or None if they mean none."""
    soname = strings[offset:].partition(b"\0")[0]
    if flags not in ABI_OF or (offset and not is_name(soname)) or defect or value:
        return None
    return ABI_OF[flags], soname if offset else None


def read(aux):
    """The cached records of a file. Raises Damaged."""
    if len(aux) < HEADER or not aux.startswith((MAGIC, OLD_MAGIC)):
        raise Damaged(0)
    count, length = struct.unpack_from("<II", aux, len(MAGIC))
    strings_at = HEADER + RECORD * count
    if len(aux) != strings_at + length:
        raise Damaged(len(MAGIC))
    strings = aux[strings_at:]
    if not (strings.startswith(b"\0") and strings.endswith(b"\0")):
        raise Damaged(strings_at)
    stamps, above = {}, None
    for index in range(count):
        identity, *numbers = record_at(aux, index)
        is_defect = numbers[2] and aux.startswith(MAGIC)
        what = defect_of(*numbers) if is_defect else library_of(strings, *numbers)
        if what is None or (above is not None and above >= identity):
            raise Damaged(HEADER + RECORD * index)
        stamps[identity], above = what, identity
    return stamps


def loaded(aux):
    """The cached records of a file's bytes (None if it doesn't exist), and the first place at which it is corrupt, or None."""
    try:
        return {} if aux is None else read(aux), None
    except Damaged as damaged:
        return {}, damaged.at


def text(stamps):
    """The file of these cached records."""
    offsets, strings, records = {None: 0}, b"\0", bytearray()
    for (device, inode, ctime, size), what in sorted(stamps.items(), key=lambda stamp: stamp[0]):
        if isinstance(what, str):
            name, _, value = what.partition(" ")
            numbers = 0, 0, 1 + [row[0] for row in DEFECTS].index(name), int(value or 0)
        else:
            abi, soname = what
            if soname not in offsets:
                offsets[soname] = len(strings)
                strings += soname + b"\0"
            numbers = ABIS[abi].flags, offsets[soname], 0, 0
        records += struct.pack("<4QiIII", inode, ctime, size, device, *numbers)
    return MAGIC + struct.pack("<II", len(stamps), len(strings)) + records + strings


ONE = bytes.fromhex(
    "676c6962632d6c642e736f2e61757863616368652d312e31 01000000 0b000000 0700000000000000 0300000000000000 fb00000000000000 0000000000000000"
    "03030000 01000000 0000000000000000 006c69627a2e736f2e3100"
)
OLD = OLD_MAGIC + ONE[24:]
OTHER = struct.pack("<4QiIII", 6, 3, 251, 0, 0x0303, 0, 0, 0)


def changed(at, value):
    return ONE[:at] + bytes([value]) + ONE[at + 1 :]


def defect(number, value, flags=0, offset=0, magic=MAGIC):
    """A file of one record with these numbers."""
    return magic + ONE[24:64] + struct.pack("<iIII", flags, offset, number, value) + ONE[80:]


# Files with the first place at which they are corrupt, or None, worked out by hand from the rules.
ROWS = [
    (ONE, None), (MAGIC + struct.pack("<IIB", 0, 1, 0), None), (b"", 0), (bytes(40), 0), (ONE[:31], 0), (changed(23, 50), 0), (ONE[:32], 24), (ONE[:-1], 24),
    (ONE + b"\0", 24), (changed(24, 2), 24), (changed(24, 0), 24), (changed(28, 10), 24), (MAGIC + bytes(8), 32), (changed(80, 1), 80), (changed(90, 1), 80),
    (changed(64, 1), 32), (changed(65, 0), None), (changed(68, 11), 32), (changed(68, 10), 32), (changed(68, 4), None), (changed(68, 0), None), (changed(81, 47), 32),
    (changed(85, 255), 32), (changed(72, 1), 32), (changed(79, 1), 32), (changed(24, 2)[:80] + OTHER + ONE[80:], 80), (changed(24, 2)[:32] + OTHER + ONE[32:], None),
    (OLD, None), (defect(1, 0), None), (defect(1, 0, magic=OLD_MAGIC), 32), (defect(0, 0), 32), (defect(13, 0), None), (defect(14, 0), 32), (defect(1, 1), 32),
    (defect(1, 0, flags=0x0303), 32), (defect(1, 0, offset=1), 32), (defect(2, 63), None), (defect(2, 64), 32), (defect(3, 0), None), (defect(3, 1), 32),
    (defect(3, 2), 32), (defect(3, 255), None), (defect(3, 256), 32), (defect(4, 1), 32), (defect(4, 255), None), (defect(4, 256), 32), (defect(5, 65535), None),
    (defect(5, 65536), 32), (defect(6, 3), 32), (defect(6, 65535), None), (defect(6, 65536), 32), (defect(12, 1), None), (defect(12, 2), 32), (defect(12, 29), None),
    (defect(12, 30), 32), (defect(11, 1), 32), (defect(13, 1), 32), (defect(0, 1), 32), (defect(0, 1, flags=0x0303), 32),
]  # fmt: skip


def rows():
    """Which rows are read otherwise."""
    wrong = [f"{aux.hex()}: damaged at {loaded(aux)[1]}; wanted {at}" for aux, at in ROWS if loaded(aux)[1] != at]
    if text({(0, 7, 3, 251): ("x86-64", b"libz.so.1")}) != ONE or read(ONE) != {(0, 7, 3, 251): ("x86-64", b"libz.so.1")}:
        wrong.append("the file of one cached record")
    if text({(0, 7, 3, 251): "BadMachine 40"}) != MAGIC + struct.pack("<II", 1, 1) + ONE[32:64] + bytes(8) + struct.pack("<II", 5, 40) + b"\0":
        wrong.append("the file of a cached defect")
    if read(defect(5, 40)) != {(0, 7, 3, 251): "BadMachine 40"} or read(OLD) != read(ONE):
        wrong.append("a cached defect, and a file of version 1.0")
    return wrong
