"""Changes bytes, names and trees at random, for `scripts/fuzz`. Everything follows from a `random.Random`."""

import struct

import tool_modules  # noqa: F401
from image_facts import AUX_MAGIC, CACHE_MAGIC, EXTENSION_MAGIC, OLD_AUX_MAGIC

# The most bytes of one file that a change makes.
MOST = 2**20
NUMBERS = (0, 1, 2, 7, 8, 0x7F, 0x80, 0xFF, 0x100, 0x1000, 0x7FFF, 0xFFFF, 0x10000, 2**20, 2**24, 2**31 - 1, 2**31, 2**32 - 1, 2**32, 2**63 - 1, 2**63, 2**64 - 1)
WORDS = {
    "manifest": [
        b"/set", b"/unset", b"..", b".", b"./", b"type=file", b"type=dir", b"type=link", b"type=char", b"type=", b"link=", b"link=..", b"link=/", b"link=libz.so.1",
        b"contents=", b"contents=../x", b"contents=usr/lib/libz.so.1.2", b"inode=", b"ctime=", b"size=", b"dev=", b"nlink=1", b"mode=0755", b"optional", b"=", b"\\\n",
        b"\\040", b"\\000", b"\\377", b"\\", b"#", b"\t", b"\r\n", b"\n", b"18446744073709551615", b"18446744073709551616", b"usr", b"all",
    ],
    "conf": [
        b"include ", b"include /etc/ld.so.conf", b"include *", b"include ld.so.conf.d/*", b"hwcap 0 nosegneg", b"*", b"?", b"[a-z]", b"[!a]", b"[", b"]", b"[]]", b"\\", b"#",
        b"/", b"/usr/lib", b"/usr/lib/", b"//", b"..", b"=libc6", b"=libc5", b"\n", b"\t", b"\r", b"\0", b"/opt/a", b"/l0", b"\xff", b"/*/*/*", b"/lib*",
    ],
    "script": [b"put ", b"drop ", b"update\n", b"put ./usr/lib/libz.so.1.2 type=file\n", b"drop ./usr/lib/libz.so.1.2\n", b"drop ./usr\n", b"#", b"\\", b"\n", b"./x type=dir\n", b"link=../.."],
    "library": [b"$ORIGIN", b"${ORIGIN}", b"$LIB", b"${PLATFORM}", b":", b"/", b"..", b"\0", b"libz.so.1\0", b"lib" + b"9" * 10 + b".so.1\0", b"\x7fELF"],
    "cache": [CACHE_MAGIC, b"ld.so-1.7.0", b"\0", b"libz.so.1\0", b"/usr/lib/libz.so.1\0", struct.pack("<I", EXTENSION_MAGIC)],
    "aux": [AUX_MAGIC, OLD_AUX_MAGIC, b"\0", b"libz.so.1\0"],
    "name": [b"..", b".", b"\n", b"\033[2J", b" ", b"\\", b"*", b"\xff", b"\xc3\xa9", b"9" * 10, b"x" * 200, b".so", b"lib", b".#prelink#", b";", b":"],
}  # fmt: skip
WORDS["layer"] = [*WORDS["manifest"], b".wh.", b".wh..wh..opq", b".wh..", b"./.wh.usr\n", b"./usr/lib/.wh.libz.so.1.2\n", b"./usr/lib/.wh..wh..opq type=file\n"]
# Texts, whose lines are changed too.
LINES = ("manifest", "layer", "conf", "script")


def some(chance, most):
    """A small number more often than a large one, from 1."""
    return min(most, 1 + int(chance.expovariate(0.5)))


def span(chance, data):
    begin = chance.randrange(len(data) + 1)
    return begin, min(len(data), begin + some(chance, 3) ** chance.randrange(1, 9))


def changed_bits(chance, data, _kind):
    data = bytearray(data)
    for _ in range(some(chance, 8)):
        if data:
            data[chance.randrange(len(data))] ^= 1 << chance.randrange(8)
    return bytes(data)


def put_number(chance, data, _kind):
    """A number of 1, 2, 4 or 8 bytes, perhaps one near the length, at an aligned place or elsewhere."""
    width = chance.choice((1, 2, 4, 8))
    value = chance.choice(NUMBERS) if chance.random() < 0.7 else max(0, len(data) + chance.randrange(-9, 9))
    at = chance.randrange(len(data) + 1)
    at -= at % width if chance.random() < 0.8 else 0
    return data[:at] + (value % 2 ** (8 * width)).to_bytes(width, "little") + data[at + width :]


def put_word(chance, data, kind):
    begin, end = span(chance, data)
    return data[:begin] + chance.choice(WORDS[kind]) + data[begin if chance.random() < 0.5 else end :]


def put_digits(chance, data, _kind):
    at = chance.randrange(len(data) + 1)
    return data[:at] + b"%d" % chance.choice(NUMBERS) + data[at:]


def cut(chance, data, _kind):
    begin, end = span(chance, data)
    return data[:begin] + data[end:]


def ended(chance, data, _kind):
    return data[: chance.randrange(len(data) + 1)]


def repeated(chance, data, _kind):
    """A part again, sometimes very often."""
    begin, end = span(chance, data)
    room = (MOST - len(data)) // max(1, end - begin)
    count = min(chance.choice((1, 2, 3, 50, 1000, 20000, MOST)), room)
    return data[:end] + data[begin:end] * count + data[end:]


def moved(chance, data, _kind):
    begin, end = span(chance, data)
    at = chance.randrange(len(data) + 1)
    return data[:at] + data[begin:end] + data[at:]


def with_lines(chance, data, kind):
    """Lines repeated, exchanged, dropped, or with a word more."""
    lines = data.split(b"\n")
    for _ in range(some(chance, 5)):
        at, other = chance.randrange(len(lines)), chance.randrange(len(lines))
        what = chance.randrange(4)
        if what == 0:
            lines[at], lines[other] = lines[other], lines[at]
        elif what == 1:
            lines[at:at] = [lines[other]] * chance.choice((1, 1, 2, 100))
        elif what == 2 and len(lines) > 1:
            del lines[at]
        else:
            lines[at] += b" " + chance.choice(WORDS[kind])
    return b"\n".join(lines)


CHANGES = (changed_bits, put_number, put_word, cut, ended, repeated, moved)


def changed(chance, data, kind):
    """A content with some changes. `kind` names its words."""
    for _ in range(some(chance, 6)):
        change = chance.choice(CHANGES + (with_lines, put_digits, put_word) * (kind in LINES))
        data = change(chance, data, kind)[:MOST]
    return data


def changed_text(chance, text, kind):
    """An argument or a name: without zero bytes, and not empty."""
    data = changed(chance, text, kind)[:250].replace(b"\0", b"") or b"x"
    return data
