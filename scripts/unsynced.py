"""What a crash of the machine may leave of a directory, for `scripts/crash`. It is derived from a record of the calls that a program made
there: changes that weren't flushed are kept or lost.

An fsync of a file flushes its bytes, and an fsync of a directory flushes the names in it. Each unflushed creation, rename or removal of a
name is kept or lost, independently of the others. A file with unflushed bytes has the flushed bytes only, all bytes, half of the unflushed
bytes, or zeros in their place. A rename is atomic. File systems with a journal guarantee more.
"""

import itertools
import os
from dataclasses import dataclass, field

# The largest number of unflushed changes of names: each doubles the number of states.
MOST_OPEN = 12
# Calls below the directory that change nothing that is recorded: modes and owners aren't.
LOOKS = {
    "read", "close", "stat", "fstat", "lstat", "lseek", "pread64", "flock", "fchmod", "fchown", "chmod", "getdents64", "newfstatat",
    "statx", "access", "faccessat2", "readlink", "fchmodat", "mmap",
}  # fmt: skip
CHANGES = {"open", "openat", "write", "pwrite64", "ftruncate", "fsync", "fdatasync", "rename", "mkdir", "unlink", "symlink"}
# What comes before the target in the content of a link. No file of `scripts/crash` has these bytes.
LINK = b"-> "


class Unknown(Exception):
    """A call whose change isn't known here."""


@dataclass(eq=False)
class File:
    flushed: bytes = b""
    # Writes after the last flush: offsets and bytes, or a length alone.
    written: list = field(default_factory=list)

    def content(self):
        whole = bytearray(self.flushed)
        for offset, data in self.written:
            if data is None:
                whole = whole[:offset].ljust(offset, b"\0")
            else:
                whole = whole.ljust(offset, b"\0")
                whole[offset : offset + len(data)] = data
        return bytes(whole)

    def left(self):
        """What a crash may leave of it."""
        whole = self.content()
        if whole == self.flushed:
            return [whole]
        return list(dict.fromkeys([self.flushed, whole, whole[: len(whole) // 2], self.flushed.ljust(len(whole), b"\0")]))


@dataclass(eq=False)
class Folder:
    flushed: dict = field(default_factory=dict)
    now: dict = field(default_factory=dict)


@dataclass(eq=False)
class Change:
    """A change of names: the names that are removed, and those that are added with their files. Each is a directory and a name."""

    gone: tuple
    come: tuple
    node: object

    def folders(self):
        return {id(place[0]) for place in (self.gone, self.come) if place}

    def make(self, names_of):
        if self.gone:
            names_of(self.gone[0]).pop(self.gone[1], None)
        if self.come:
            names_of(self.come[0])[self.come[1]] = self.node


def content_of(path):
    """The bytes of a file, or the target of a link after LINK."""
    if os.path.islink(path):
        return LINK + os.fsencode(os.readlink(path))
    with open(path, "rb") as file:
        return file.read()


class Record:
    """The directory as its calls have changed it so far."""

    def __init__(self, root):
        self.root_path = os.path.realpath(root)
        # Files and directories by their inodes.
        self.nodes = {}
        self.changes = []
        self.root = self.taken_in(self.root_path)

    def taken_in(self, path):
        """What is there before the first call, which is flushed."""
        if os.path.isdir(path) and not os.path.islink(path):
            node = Folder()
            for name in os.listdir(path):
                node.flushed[name] = self.taken_in(f"{path}/{name}")
            node.now = dict(node.flushed)
        else:
            node = File(content_of(path))
        self.nodes[os.lstat(path).st_ino] = node
        return node

    def is_below(self, path):
        return path == self.root_path or path.startswith(self.root_path + "/")

    def place(self, path):
        """The directory of a path, and its name there."""
        *folders, name = path.removeprefix(self.root_path).strip("/").split("/")
        node = self.root
        for part in folders:
            node = node.now[part]
        return node, name

    def node_at(self, path):
        if path == self.root_path:
            return self.root
        folder, name = self.place(path)
        return folder.now.get(name)

    def change(self, gone, come, node):
        it = Change(gone, come, node)
        it.make(lambda folder: folder.now)
        self.changes.append(it)

    def note(self, call):
        """Takes in a call that was done. It says whether the call changes anything."""
        if not (self.is_below(call.path) or self.is_below(call.other) or (call.by_number and call.inode in self.nodes)):
            return False
        if call.result < 0 or call.name in LOOKS:
            return False
        if call.name not in CHANGES:
            raise Unknown(str(call))
        getattr(self, f"note_{call.name}")(call)
        return True

    def note_open(self, call, flags=None):
        flags = call.arguments[1] if flags is None else flags
        node = self.node_at(call.path)
        if node is None:
            node = File()
            self.change((), self.place(call.path), node)
        elif flags & os.O_TRUNC:
            node.written.append((0, None))
        self.nodes[call.inode] = node

    def note_openat(self, call):
        self.note_open(call, call.arguments[2])

    def note_write(self, call):
        self.nodes[call.inode].written.append((call.offset, call.data))

    note_pwrite64 = note_write

    def note_ftruncate(self, call):
        self.nodes[call.inode].written.append((call.arguments[1], None))

    def note_fsync(self, call):
        node = self.nodes[call.inode]
        if isinstance(node, File):
            node.flushed, node.written = node.content(), []
            return
        flushed = [it for it in self.changes if id(node) in it.folders()]
        self.changes = [it for it in self.changes if id(node) not in it.folders()]
        for it in flushed:
            it.make(lambda folder: folder.flushed)

    note_fdatasync = note_fsync

    def note_rename(self, call):
        self.change(self.place(call.path), self.place(call.other), self.node_at(call.path))

    def note_mkdir(self, call):
        self.change((), self.place(call.path), Folder())

    def note_symlink(self, call):
        self.change((), self.place(call.other), File(LINK + os.fsencode(call.path)))

    def note_unlink(self, call):
        self.change(self.place(call.path), (), None)

    def left(self):
        """What a crash may leave: each a set of paths with their contents, None for a directory."""
        if len(self.changes) > MOST_OPEN:
            raise Unknown(f"{len(self.changes)} changes of names that aren't flushed")
        states = set()
        for kept in itertools.product((False, True), repeat=len(self.changes)):
            names = {}

            def names_of(folder):
                return names.setdefault(id(folder), dict(folder.flushed))

            for it in itertools.compress(self.changes, kept):
                it.make(names_of)
            paths = list(self.walk(self.root, "", names_of))
            contents = [node.left() if isinstance(node, File) else [None] for _, node in paths]
            for chosen in itertools.product(*contents):
                states.add(frozenset(zip((path for path, _ in paths), chosen)))
        return states

    def walk(self, folder, above, names_of):
        for name, node in names_of(folder).items():
            yield above + name, node
            if isinstance(node, Folder):
                yield from self.walk(node, f"{above}{name}/", names_of)
