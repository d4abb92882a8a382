"""A plain reader of the scripts of `ldconfig batch`: lines that put a node into a tree, drop one, or update the image.

It is written from docs/FORMATS.md and shares nothing with the program. Trees, and the lines of `put`, are those of tools/mtree_model.py.
"""

import re
import sys

sys.dont_write_bytecode = True
import tool_modules  # noqa: E402,F401
from mtree_model import KINDS, LONGEST_PATH, Faults, Node, Reader, decode, is_name  # noqa: E402

# Of several errors of one line the first in this order counts.
ORDER = (*KINDS, "NotThere")
UPDATE, EDIT = "update", "edit"


class Bad(Exception):
    """The kind of the first error of a line."""


class OneLine(Reader):
    """A reader of one line of a tree, which has a full path and no defaults."""

    def __init__(self, tree):
        super().__init__()
        self.tree, self.is_put = tree, False
        self.has_below = {path[:count] for path in tree for count in range(1, len(path))}

    def put(self, path, node, faults):
        self.is_put = True
        super().put(path, node, faults)


def names_in(word):
    return [name for name in word.split(b"/") if name not in (b"", b".")]


def is_full(word):
    """Whether a word is a full path, and not the root's: it has a slash after its first character."""
    return b"/" in word[1:] and bool(names_in(word))


def put(tree, words):
    """Puts what the words say. Returns the errors, and whether there is a node."""
    if not words:
        return {"BadLine"}, False
    reader = OneLine(tree)
    faults = reader.line(words)
    faults.unless(is_full(words[0]) and not words[0].startswith(b"#"), "BadLine")
    return faults, reader.is_put


def drop(tree, words):
    """Removes the node of a path. Returns the errors."""
    if len(words) != 1:
        return {"BadLine"}
    faults = Faults()
    path = tuple(decode(name, faults) for name in names_in(words[0]))
    faults.unless(is_full(words[0]) and all(map(is_name, path)) and sum(map(len, path)) + len(path) <= LONGEST_PATH, "BadLine")
    faults.unless(path in tree, "NotThere")
    if not faults:
        del tree[path]
    return faults


def take(tree, line):
    """Takes a line: edits the tree. Returns what it asked for, an edit, an update or nothing; raises Bad."""
    words = [word for word in re.split(rb"[ \t]", line) if word]
    if not words or words[0].startswith(b"#"):
        return None
    faults, asked = {"BadLine"}, EDIT
    if line.endswith(b"\\"):
        pass
    elif words[0] == b"put":
        faults, is_put = put(tree, words[1:])
        asked = EDIT if is_put else None
    elif words[0] == b"drop":
        faults = drop(tree, words[1:])
    elif words == [b"update"]:
        faults, asked = (), UPDATE
    if faults:
        raise Bad(min(faults, key=ORDER.index))
    return asked


A = {(b"a",): ("file", b"a", None)}
# Lines with a tree, and what they ask for or their error, worked out by hand from the rules.
ROWS = [
    (b"", {}, None), (b" \t", {}, None), (b" # c\\", {}, None), (b"update", {}, UPDATE), (b"\tupdate ", {}, UPDATE), (b"update\r", {}, "BadLine"), (b"update x", {}, "BadLine"),
    (b"update\\", {}, "BadLine"), (b"frob", {}, "BadLine"), (b"put", {}, "BadLine"), (b"put ./a type=dir", {}, EDIT), (b"put ./a type=dir\r", {}, "BadType"), (b"put ./a\\\\", {}, "BadLine"),
    (b"put #x/y type=file", {}, "BadLine"), (b"put ..", {}, "BadLine"), (b"put /set type=dir", {}, "BadLine"), (b"put a type=dir", {}, "BadLine"), (b"put ./ type=dir", {}, "BadLine"),
    (b"put ./a type=char", {}, None), (b"put ./a/b type=fifo", A, None), (b"put ./a/b", A, "Clash"), (b"put ./a", A, EDIT), (b"put ./x type=pear", {}, "BadType"),
    (b"put ./x type=link", {}, "NoTarget"), (b"put ./a\\q type=pear", {}, "BadEscape"), (b"put /set link=\\q", {}, "BadEscape"), (b"drop", {}, "BadLine"), (b"drop ./a", A, EDIT),
    (b"drop ./a", {}, "NotThere"), (b"drop ./a\r", A, "NotThere"), (b"drop a", A, "BadLine"), (b"drop /a", A, "BadLine"), (b"drop //a", A, EDIT), (b"drop #x", {}, "BadLine"),
    (b"drop #x/y", {(b"#x", b"y"): ("dir", b"", None)}, EDIT), (b"drop a\\q", {}, "BadEscape"), (b"drop a\\q b", {}, "BadLine"), (b"drop ./", A, "BadLine"), (b"drop ./b/../a", A, "BadLine"),
    (b"drop ./\\141", A, EDIT), (b"drop ./a\\", A, "BadLine"),
]  # fmt: skip


def rows():
    """Which rows are taken otherwise."""
    wrong = []
    for line, tree, wanted in ROWS:
        try:
            got = take({path: Node(*node) for path, node in tree.items()}, line)
        except Bad as bad:
            got = str(bad)
        wrong += [] if got == wanted else [f"{line!r}: {got}; wanted {wanted}"]
    return wrong
