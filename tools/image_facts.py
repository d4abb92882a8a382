"""What docs/FORMATS.md fixes, for all scripts: ABIs, numbers of ELF, paths, limits, default directories, the lines of a report, which names are
library names, and for which the loader can search. `scripts/contracts` compares it with the sources of the program.

It is written from that page and shares nothing with the program.
"""

import os
import re
from collections import namedtuple

# An ABI in ELF files (e_machine, the class: 1 for 32 bits, 2 for 64, and the value that the bits of a mask have in e_flags), in caches
# (flags), in what `ldconfig -p` prints (words), and in Debian's directories (the triplet).
Abi = namedtuple("Abi", "machine width mask bits flags words triplet")
ABIS = {
    "i386": Abi(3, 1, 0, 0, 0x0003, "libc6", "i386-linux-gnu"),
    "x86-64": Abi(62, 2, 0, 0, 0x0303, "libc6,x86-64", "x86_64-linux-gnu"),
    "x32": Abi(62, 1, 0, 0, 0x0803, "libc6,x32", "x86_64-linux-gnux32"),
    "aarch64": Abi(183, 2, 0, 0, 0x0A03, "libc6,AArch64", "aarch64-linux-gnu"),
    "arm-hf": Abi(40, 1, 0x400, 0x400, 0x0903, "libc6,hard-float", "arm-linux-gnueabihf"),
    "riscv64-d": Abi(243, 2, 0x6, 0x4, 0x1003, "libc6,double-float", "riscv64-linux-gnu"),
}
# The offset of e_flags in a file header, by the class.
EFLAGS_AT = {1: 36, 2: 48}
# Types of files and of segments, and tags of a dynamic section (gABI).
ET_EXEC, ET_DYN = 2, 3
PT_LOAD, PT_DYNAMIC = 1, 2
DT_NULL, DT_NEEDED, DT_STRTAB, DT_STRSZ, DT_SONAME, DT_RPATH, DT_RUNPATH = 0, 1, 5, 10, 14, 15, 29

# The files of an image, below its directory.
MANIFEST, CACHE, AUX, CONF = "image.mtree", "etc/ld.so.cache", "var/cache/ldconfig/aux-cache", "etc/ld.so.conf"

CACHE_MAGIC, AUX_MAGIC, OLD_AUX_MAGIC = b"glibc-ld.so.cache1.1", b"glibc-ld.so.auxcache-1.1", b"glibc-ld.so.auxcache-1.0"
EXTENSION_MAGIC = 0xEAA42174
GENERATOR = b"ldconfig (image profile) release version 1"

# In bytes: names, paths, targets of links, keys, manifests and conf files.
LONGEST_NAME = 255
LONGEST_PATH = LONGEST_TARGET = LONGEST_KEY = 4095
LONGEST_MANIFEST = 2**26
LARGEST_CONF = 2**20
# Numbers: nodes of a manifest, entries of a cache, links that are followed for one path, conf files that include one another.
MOST_NODES = 2**20
MOST_ENTRIES = 262144
MOST_LINKS = 40
MOST_DEPTH = 16
# All strings of a cache have fewer bytes than this.
MOST_STRINGS = 3 << 29
# The most bytes of a cache that is read: its entries of 24 bytes, its strings, and 64 KiB for what else it has.
LONGEST_CACHE = MOST_ENTRIES * 24 + MOST_STRINGS + 2**16

SYSTEM_DIRS = ["/lib", "/usr/lib", "/lib64", "/usr/lib64"]
# RISC-V's loader has these too, and so has `-r`.
LP64D_DIRS = ["/lib64/lp64d", "/usr/lib64/lp64d"]
# How lines of a report begin, except for the last one.
REPORT_KINDS = ("aux", "conf", "link", "blocked", "mixed", "skip", "dangling", "twin")
# Subdirectories for processors and platforms that ldconfig and the loader knew before glibc 2.37 (docs/DIFFERENCES.md).
OLDER_CAPS = {"tls", "haswell", "xeon_phi", "avx512_1", "x86_64", "i386", "i486", "i586", "i686", "sse2", "atomics", "aarch64"}


def abi_by(machine, width, eflags):
    """The ABI with these three in its row, None if there is none."""
    rows = ABIS.items()
    return next((abi for abi, row in rows if (row.machine, row.width, row.bits) == (machine, width, eflags & row.mask)), None)


def abi_in(head):
    """The ABI of a file that begins with these bytes, a whole ELF header. None for another file, and for one of another ABI."""
    if len(head) < 52 or head[:4] != b"\x7fELF" or head[4] not in EFLAGS_AT or head[5] != 1:
        return None
    return abi_by(int.from_bytes(head[18:20], "little"), head[4], int.from_bytes(head[EFLAGS_AT[head[4]] :][:4], "little"))


def is_unfinished(name):
    """Whether a file of this name is one that dpkg, rpm or prelink has not renamed to its final name yet."""
    name = os.fsencode(name)
    return name.endswith((b".dpkg-new", b".dpkg-tmp", b".#prelink#")) or b";" in name


def is_like_library(name):
    """Whether a name has the form of a library name, finished or not."""
    name = os.fsencode(name)
    return name.startswith((b"lib", b"ld-")) and b".so" in name


def is_library_name(name):
    """Whether ldconfig(8) looks at a file of this name."""
    return is_like_library(name) and not is_unfinished(name)


def is_searchable(name):
    """Whether the loader's binary search of a cache can take a name: it has no byte above 127 and no number of more than nine digits."""
    name = os.fsencode(name)
    return name.isascii() and not re.search(rb"[0-9]{10}", name)
