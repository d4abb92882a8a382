"""Reads the entries of an ld.so.cache (glibc's dl-cache.h, version 1.1 with extensions, little endian)."""

import struct
from collections import namedtuple

from image_facts import ABIS, CACHE_MAGIC, EXTENSION_MAGIC

GENERATOR_TAG, HWCAPS_TAG = 0, 1
# The words that `ldconfig -p` prints for the flags of an ABI.
KINDS = {abi.flags: abi.words for abi in ABIS.values()}


class Entry(namedtuple("Entry", "soname flags cap path")):
    """A soname, its flags, the name of a subdirectory for processors (or None, or a number of another hwcap), and its path."""

    @property
    def kind(self):
        cap = f", hwcap: {self.cap}" if isinstance(self.cap, int) else f', hwcap: "{self.cap.decode()}"' if self.cap is not None else ""
        return KINDS.get(self.flags, f"flags {self.flags:#06x}") + cap


def text_at(cache, offset):
    end = cache.find(b"\0", offset)
    if offset >= len(cache) or end < 0:
        raise ValueError(f"a text outside of the file, at {offset}")
    return cache[offset:end]


def strings_length(cache):
    """The number of bytes of the strings."""
    return struct.unpack_from("<I", cache, 24)[0]


def section_of(cache, wanted):
    """The offset and the size of the first section with this tag; an empty one if there is none."""
    at = struct.unpack_from("<I", cache, 32)[0]
    if not at:
        return 0, 0
    magic, count = struct.unpack_from("<II", cache, at)
    sections = [struct.unpack_from("<IIII", cache, at + 8 + 16 * i) for i in range(count)]
    found = [(start, size) for tag, _, start, size in sections if tag == wanted and magic == EXTENSION_MAGIC]
    return found[0] if found else (0, 0)


def caps_of(cache):
    """The names of subdirectories for processors, by their indices."""
    start, size = section_of(cache, HWCAPS_TAG)
    return [text_at(cache, offset) for (offset,) in struct.iter_unpack("<I", cache[start : start + size])]


def generator_of(cache):
    """The text that says which program wrote a cache, or nothing."""
    try:
        start, size = section_of(cache, GENERATOR_TAG)
    except struct.error:
        return b""
    return cache[start : start + size]


def entries_of(cache):
    """The entries of a cache in their order. Raises ValueError if the bytes are not a cache."""
    try:
        if not cache.startswith(CACHE_MAGIC):
            raise ValueError("other first bytes")
        caps, entries = caps_of(cache), []
        for number in range(struct.unpack_from("<I", cache, 20)[0]):
            flags, soname, path, _, hwcap = struct.unpack_from("<iIIIQ", cache, 48 + 24 * number)
            cap = caps[hwcap & 0xFFFFFFFF] if hwcap >> 62 & 1 else hwcap or None
            entries.append(Entry(text_at(cache, soname), flags, cap, text_at(cache, path)))
        return entries
    except (struct.error, IndexError, UnicodeDecodeError) as error:
        raise ValueError(f"no whole cache: {error}") from error
