#!/usr/bin/env python3
"""A plain reader of manifests (mtree(5), as docs/FORMATS.md has it), for comparison with the program.

It is written from the format's rules, one after the other, with whole lines and words, and shares nothing with the program. `read` returns
a text's tree, or raises the first error; `canonical` writes a tree. Run by itself, it reads a table of texts whose trees and errors were
worked out from the rules by hand.
"""

import re
import sys
from typing import NamedTuple

from image_facts import LONGEST_KEY, LONGEST_MANIFEST, LONGEST_NAME, LONGEST_PATH, LONGEST_TARGET, MOST_NODES

# Of several errors of one line the first in this order counts.
KINDS = ("BadEscape", "BadLine", "BadNumber", "BadType", "NoTarget", "Clash", "TooMany")
NODES = {b"file", b"dir", b"link"}
NO_NODES = {b"block", b"char", b"fifo", b"socket"}
NUMBERS = {b"dev", b"inode", b"ctime", b"size"}
KNOWN = {b"type", b"link", b"contents"} | NUMBERS
ESCAPE = re.compile(rb"\\([0-3][0-7]{2}|[stn\\#])?")
ESCAPED = {b"s": b" ", b"t": b"\t", b"n": b"\n", b"\\": b"\\", b"#": b"#"}


class Bad(Exception):
    """A malformed text: the number of its first malformed line and the kind, or TooLong."""

    def __init__(self, kind, line=None):
        super().__init__(kind)
        self.kind, self.line = kind, line

    def __str__(self):
        """What follows `fault: ` on the program's output."""
        return f"BadManifest: {self.kind}" if self.line is None else f"BadManifest line {self.line}: {self.kind}"


class Node(NamedTuple):
    """A directory, a file with its key and perhaps its identity (dev, inode, ctime, size), or a link with its target."""

    kind: str
    text: bytes = b""
    identity: tuple | None = None


class Faults(set):
    """The kinds of all errors of one line."""

    def unless(self, holds, kind):
        if not holds:
            self.add(kind)


def joined_lines(text):
    """The lines with the number of their first physical line: one that ends in a backslash goes on in the next, in comments too."""
    *physical, last = text.split(b"\n")
    # A carriage return is removed only before a line feed.
    physical = [line.removesuffix(b"\r") for line in physical] + [last]
    joined, number = b"", 1
    for at, line in enumerate(physical, 1):
        if line.endswith(b"\\"):
            joined += line[:-1] + b" "
        else:
            yield number, joined + line
            joined, number = b"", at + 1
    yield number, joined


def is_utf8(text):
    try:
        text.decode()
    except UnicodeDecodeError:
        return False
    return True


def is_name(text):
    return 1 <= len(text) <= LONGEST_NAME and is_utf8(text) and not set(b"/\0") & set(text) and text not in (b".", b"..")


def decode(text, faults):
    """The text without its escapes."""

    def decoded(escape):
        code = escape[1]
        faults.unless(code and code != b"000", "BadEscape")
        return ESCAPED.get(code) or bytes([int(code or b"0", 8)])

    return ESCAPE.sub(decoded, text)


def keywords(words, faults):
    """The values of the known keywords, of which later ones override earlier ones. Each is checked when it is read."""
    values = {}
    for word in words:
        key, equals, value = word.partition(b"=")
        if key not in KNOWN:
            continue
        faults.unless(equals, "BadLine")
        if not equals:
            continue
        if key in NUMBERS:
            faults.unless(re.fullmatch(rb"[0-9]{1,20}", value) and int(value) < 2**64, "BadNumber")
        elif key == b"type":
            faults.unless(value in NODES | NO_NODES, "BadType")
        else:
            value = decode(value, faults)
            faults.unless(b"\0" not in value, "BadLine")
        if key == b"link":
            faults.unless(len(value) <= LONGEST_TARGET, "BadLine")
        if key == b"contents":
            faults.unless(1 <= len(value) <= LONGEST_KEY and is_utf8(value), "BadLine")
        values[key] = value
    return values


class Reader:
    """What the lines so far have made: the tree, the defaults, and the open directories."""

    def __init__(self):
        self.tree = {}
        self.has_below = set()
        self.defaults = {}
        self.opened = []

    def line(self, words):
        """Reads one line, and returns its errors."""
        faults = Faults()
        first, *others = words
        if first.startswith(b"#"):
            return faults
        if first == b"..":
            faults.unless(self.opened, "BadLine")
            self.opened = self.opened[:-1]
        elif first == b"/unset":
            self.defaults = {} if b"all" in others else {key: value for key, value in self.defaults.items() if key not in others}
        elif first == b"/set":
            self.defaults |= keywords(others, faults)
        else:
            self.path_line(first, self.defaults | keywords(others, faults), faults)
        return faults

    def path_line(self, first, values, faults):
        """A line of a path: where it leads is decided on the word as written, each component is decoded by itself."""
        is_full = b"/" in first[1:]
        faults.unless(is_full or not first.startswith(b"/"), "BadLine")
        current = self.opened[-1] if self.opened else ()
        components = [decode(word, faults) for word in first.split(b"/") if word not in (b"", b".")]
        faults.unless(all(map(is_name, components)), "BadLine")
        path = (*(() if is_full else current), *components)
        whole = b"".join(b"/" + name for name in path)
        faults.unless(len(whole) <= LONGEST_PATH, "BadLine")
        kind = values.get(b"type", b"file")
        # The root, and the current directory by its own word, are directories.
        faults.unless(kind == b"dir" or (path and first != b"."), "BadLine")
        faults.unless(kind != b"link" or values.get(b"link"), "NoTarget")
        if faults:
            return
        if path and kind in NODES:
            self.put(path, self.node(kind, whole, values), faults)
        if kind == b"dir" and not is_full:
            self.opened = [*self.opened, path]

    @staticmethod
    def node(kind, whole, values):
        if kind != b"file":
            return Node(kind.decode(), values[b"link"] if kind == b"link" else b"")
        numbers = {key: int(values[key]) for key in NUMBERS if key in values}
        has_identity = {b"inode", b"ctime", b"size"} <= numbers.keys()
        identity = (numbers.get(b"dev", 0), numbers[b"inode"], numbers[b"ctime"], numbers[b"size"]) if has_identity else None
        return Node("file", values.get(b"contents", whole[1:]), identity)

    def put(self, path, node, faults):
        """Puts a node, or replaces the one that is there. Nothing can be below a file or a link."""
        above = [path[:count] for count in range(1, len(path))]
        faults.unless(all(self.tree[folder].kind == "dir" for folder in above if folder in self.tree), "Clash")
        faults.unless(node.kind == "dir" or path not in self.has_below, "Clash")
        faults.unless(path in self.tree or len(self.tree) < MOST_NODES, "TooMany")
        if not faults:
            self.tree[path] = node
            self.has_below.update(above)


def read(text):
    """The tree of a text: the nodes by the names of their paths, in the tree's order."""
    if len(text) > LONGEST_MANIFEST:
        raise Bad("TooLong")
    reader = Reader()
    for number, line in joined_lines(text):
        words = [word for word in re.split(rb"[ \t]", line) if word]
        faults = reader.line(words) if words else ()
        if faults:
            raise Bad(min(faults, key=KINDS.index), number)
    # Where `/` counts as 0, the order of paths is that of their lists of names.
    return dict(sorted(reader.tree.items()))


def outcome(text):
    """What a text reads as: its tree, or what the program says of it."""
    try:
        return read(text)
    except Bad as bad:
        return str(bad)


def escape(text):
    """A word of the canonical text."""
    return re.sub(rb"[^!-~]|[\\#]", lambda byte: b"\\%03o" % ord(byte[0]), text)


def canonical(tree):
    """The canonical text of a tree."""
    lines = [b"#mtree"]
    for path, node in tree.items():
        line = b"." + b"".join(b"/" + escape(name) for name in path) + b" type=" + node.kind.encode()
        if node.kind == "link":
            line += b" link=" + escape(node.text)
        if node.identity:
            line += b" dev=%d inode=%d ctime=%d size=%d" % node.identity
        if node.kind == "file" and node.text != b"/".join(path):
            line += b" contents=" + escape(node.text)
        lines.append(line)
    return b"\n".join(lines) + b"\n"


def folders(*paths):
    return {path: Node("dir") for path in paths}


def files(*paths):
    return {path: Node("file", b"/".join(path)) for path in paths}


def table():
    """Texts, each with its tree, or with the number and the kind of its first bad line."""
    a, b, n = (b"a",), (b"b",), b"n" * LONGEST_NAME
    # 4095 bytes: 15 names of 255 bytes, one of 254.
    deep, end = (n,) * 15, b"e" * 254
    before = b"/".join(deep)
    twenty = b"0" * 19 + b"7"
    return [
        # Lines.
        (b"", {}),
        (b"a", files(a)),
        (b"#mtree\n\n \t\n # b\n#b\\\nb\na\n", files(a)),
        (b"a\r\nb type=dir\r\n", files(a) | folders(b)),
        (b"a type=dir\r", (1, "BadType")),
        (b"a\r\r\n", files((b"a\r",))),
        (b"a type=\\\ndir\n", (1, "BadType")),
        (b"a \\\ntype=dir\nb\n", folders(a) | files((b"a", b"b"))),
        (b"a \\\r\ntype=dir", folders(a)),
        (b"a\\", files(a)),
        (b"\\", {}),
        (b"a\\\\\n", (1, "BadEscape")),
        (b"a\n\\\n \\\nb x\\\n type=pear\n", (2, "BadType")),
        (b"a\x0b\n", files((b"a\x0b",))),
        (b"# c\\\n..\na", files(a)),
        (b"\ta\ttype=dir\t\nb", folders(a) | files((b"a", b"b"))),
        # Defaults.
        (b"/set type=dir\na\n/unset type\nb", folders(a) | files((b"a", b"b"))),
        (b"/set type=link link=x\na\n/unset link\nb", (4, "NoTarget")),
        (b"/set type=link link=x\na\nb link=y\n/unset all\nc", {a: Node("link", b"x"), b: Node("link", b"y")} | files((b"c",))),
        (b"/set type=dir link=x\n/unset all\na\na/b", (4, "Clash")),
        (b"/set\n/unset\n/unset type=file \\q\na", files(a)),
        (b"/set type=dir\n/unset type=dir\n./a", folders(a)),
        (b"/set type=dir\n/set link=x\na\nb", folders(a, (b"a", b"b"))),
        (b"/set type", (1, "BadLine")),
        (b"/set link=", {}),
        (b"/set type=link link=x\na link=", (2, "NoTarget")),
        (b"/set size=x link=\\q", (1, "BadEscape")),
        (b"/set type=link", {}),
        (b"/set/a", files((b"set", b"a"))),
        (b"/a", (1, "BadLine")),
        (b"/", (1, "BadLine")),
        (b"/a\\q", (1, "BadEscape")),
        (b"/a link=\\q", (1, "BadEscape")),
        (b"\\057set", (1, "BadLine")),
        # Directories that are opened and closed.
        (b"..", (1, "BadLine")),
        (b"a type=dir\n.. type=pear \\q\nb", folders(a) | files(b)),
        (b"a type=dir\nb type=dir\n..\nc\n..\n..", (6, "BadLine")),
        (b"a type=dir\n./b type=dir\nc", folders(a, b) | files((b"a", b"c"))),
        (b". type=dir\na type=dir\n. type=dir\nb\n..\nc\n..\n..\n..", (9, "BadLine")),
        (b". type=dir\na type=dir\n. type=dir\nb\n..\nc\n..\n..", folders(a) | files((b"a", b"b"), (b"a", b"c"))),
        (b". type=dir\n..", {}),
        (b"./ type=dir\n..", (2, "BadLine")),
        (b"a type=block\nb type=socket\n./c type=char\nd/e type=fifo", {}),
        (b"a type=block\n..", (2, "BadLine")),
        (b"a type=block\na/b", files((b"a", b"b"))),
        # Paths.
        (b".//a/./b/", files((b"a", b"b"))),
        (b"a/", files(a)),
        (b"//a", files(a)),
        (b"a/../b", (1, "BadLine")),
        (b"./..", (1, "BadLine")),
        (b"// type=dir", {}),
        (b".", (1, "BadLine")),
        (b"./ type=block", (1, "BadLine")),
        (b"a type=dir\n. type=link link=x", (2, "BadLine")),
        (b". type=pear", (1, "BadLine")),
        (b". type=pear type=dir", (1, "BadType")),
        (b". type=dir type=pear", (1, "BadLine")),
        (b". link", (1, "BadLine")),
        (b"./\\056/x", (1, "BadLine")),
        (b"\\056", (1, "BadLine")),
        (b"a\\057b", (1, "BadLine")),
        (b"\xff", (1, "BadLine")),
        (b"\\303\\251", files(("é".encode(),))),
        (b"\\303/\\251", (1, "BadLine")),
        (b"a\0", (1, "BadLine")),
        (n, files((n,))),
        (n + b"n", (1, "BadLine")),
        (b"./" + before + b"/" + end, files((*deep, end))),
        (b"./" + before + b"/" + end + b"e", (1, "BadLine")),
        # Keywords.
        (b"a type=dir type=file b=\\q c type=dir", folders(a)),
        (b"a type=file=x", (1, "BadType")),
        (b"a TYPE=dir", files(a)),
        (b"a link=x contents=k", {a: Node("file", b"k")}),
        (b"a contents=\\153\\s=", {a: Node("file", b"k =")}),
        (b"a contents=", (1, "BadLine")),
        (b"a contents=\xff", (1, "BadLine")),
        (b"a contents=\0", (1, "BadLine")),
        (b"a contents=" + b"k" * 4096, (1, "BadLine")),
        (b"a contents= contents=k", (1, "BadLine")),
        (b"a link=" + b"k" * 4095, files(a)),
        (b"a link=" + b"k" * 4096, (1, "BadLine")),
        (b"a link=\0", (1, "BadLine")),
        (b"a type=link link=\\377", {a: Node("link", b"\xff")}),
        (b"a type=link link=x=\\#y", {a: Node("link", b"x=#y")}),
        (b"a size", (1, "BadLine")),
        # Escapes.
        (b"\\001\\177\\040\\s\\t\\n\\\\\\#x", files((b"\x01\x7f  \t\n\\#x",))),
        (b"\\000", (1, "BadEscape")),
        (b"\\400", (1, "BadEscape")),
        (b"\\08", (1, "BadEscape")),
        (b"\\1", (1, "BadEscape")),
        (b"\\r", (1, "BadEscape")),
        (b"\\/a", (1, "BadEscape")),
        (b"a type=\\146ile", (1, "BadType")),
        (b"a size=\\061", (1, "BadNumber")),
        (b"./a type=dir\n./b\\9 type=dir\n", (2, "BadEscape")),
        # Numbers and identities.
        (b"a size=", (1, "BadNumber")),
        (b"a inode=0x1", (1, "BadNumber")),
        (b"a ctime=-1", (1, "BadNumber")),
        (b"a dev=%d" % (2**64 - 1), files(a)),
        (b"a dev=%d" % 2**64, (1, "BadNumber")),
        (b"/set dev=1.0", (1, "BadNumber")),
        (b"a inode=1 ctime=2 size=" + twenty, {a: Node("file", b"a", (0, 1, 2, 7))}),
        (b"a size=0" + twenty, (1, "BadNumber")),
        (b"/set dev=9 size=4\na inode=1 ctime=2", {a: Node("file", b"a", (9, 1, 2, 4))}),
        (b"a dev=1 inode=1 size=2", files(a)),
        (b"a type=dir inode=1 ctime=2 size=3", folders(a)),
        # Types and targets.
        (b"a type=", (1, "BadType")),
        (b"a type=link", (1, "NoTarget")),
        (b"a type=link link=", (1, "NoTarget")),
        (b"a type=pear type=file", (1, "BadType")),
        # Nodes that are replaced, and those that clash.
        (b"a\na type=dir\na/b", folders(a) | files((b"a", b"b"))),
        (b"./a\n./a/b", (2, "Clash")),
        (b"./a/b\n./a", (2, "Clash")),
        (b"./a/b\n./a type=dir", folders(a) | files((b"a", b"b"))),
        (b"./a/b\n./a type=link link=x", (2, "Clash")),
        (b"./a type=link link=b\n./a/b/c", (2, "Clash")),
        (b"./a.b\n./a/b\n./ab", files((b"a", b"b"), (b"a.b",), (b"ab",))),
        # Several errors of one line.
        (b"/a size=x type=pear link=\\q", (1, "BadEscape")),
        (b"/a size=x type=pear", (1, "BadLine")),
        (b"a size=x type=pear", (1, "BadNumber")),
        (b"a type=pear type=link", (1, "BadType")),
        (b"./a\n./a/b type=pear", (2, "BadType")),
        (b"./a\n./a/b type=link", (2, "NoTarget")),
        (b"./a\n./a/b type=link link=x", (2, "Clash")),
        (b"./a\n./a/b type=fifo", files(a)),
        (b"size\n..\n\\q", (2, "BadLine")),
    ]


def self_check():
    """Says which rows of the table are read otherwise, and whether all are read so."""
    failed = 0
    rows = table()
    for text, wanted in rows:
        wanted = wanted if isinstance(wanted, dict) else str(Bad(wanted[1], wanted[0]))
        got = outcome(text)
        # The tree's order counts, and the canonical text is that of the same tree.
        same = got == wanted and (isinstance(got, str) or (list(got) == sorted(wanted) and read(canonical(got)) == got))
        if not same:
            failed += 1
            print(f"FAILED: {text[:80]!r}: {got}; wanted {wanted}")
    print(f"{'FAILED' if failed else 'ok'}: {len(rows) - failed} of {len(rows)} texts are read by the plain reader as written down")
    return not failed


if __name__ == "__main__":
    if sys.argv[1:] in (["--help"], ["-h"]):
        print(__doc__.strip())
        sys.exit(0)
    sys.exit(0 if self_check() else 1)
