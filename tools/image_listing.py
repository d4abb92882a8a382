"""Lists the tree of a directory as the lines of a manifest, for `tools/manifest`, `tools/update-image` and `tools/check-image`."""

import contextlib
import fnmatch
import os
import re
import stat
import sys

from image_facts import LONGEST_KEY, LONGEST_NAME, LONGEST_PATH, LONGEST_TARGET
from mtree_model import escape

# A message names the command as it was called: an installation calls tools/manifest image-manifest.
OWN_NAME = os.path.basename(sys.argv[0])

HELP_EXCLUDE = (
    "leave out of the tree what the shell pattern matches, with everything below it: "
    "a path below DIRECTORY (/usr/share/*) if PATTERN has a slash, else a name"
)


@contextlib.contextmanager
def working_directory(opened):
    """Makes an open directory the working directory, and afterwards the earlier one, which need not be readable."""
    earlier = os.open(".", os.O_PATH | os.O_DIRECTORY)
    try:
        os.fchdir(opened)
        yield
    finally:
        os.fchdir(earlier)
        os.close(earlier)


def defect(name, path):
    """Why no manifest can have this name at this path, if none can."""
    try:
        name.decode()
    except UnicodeDecodeError:
        return "a name that isn't UTF-8"
    if len(name) > LONGEST_NAME:
        return f"a name of more than {LONGEST_NAME} bytes"
    if len(path) + 1 > LONGEST_PATH:
        return f"a path of more than {LONGEST_PATH} bytes"
    return None


class Excluded:
    """The patterns of --exclude: one with a slash is for the whole path below the directory, one without is for each name."""

    def __init__(self, patterns):
        texts = [os.fsencode(pattern).rstrip(b"/") or b"/" for pattern in patterns]
        self.of_names = self.matcher([text for text in texts if b"/" not in text])
        self.of_paths = self.matcher([b"/" + text.removeprefix(b".").lstrip(b"/") for text in texts if b"/" in text])

    @staticmethod
    def matcher(patterns):
        """A regular expression that matches any of these patterns, or None if there are none."""
        wanted = "|".join(f"(?:{fnmatch.translate(os.fsdecode(pattern))})" for pattern in patterns)
        return re.compile(wanted).match if patterns else None

    def has(self, name, path):
        by_name = self.of_names and self.of_names(os.fsdecode(name))
        return bool(by_name or (self.of_paths and self.of_paths("/" + os.fsdecode(path))))


class Walk:
    """A walk through the current directory. Paths are relative to it, so each path that a manifest can have can be opened."""

    def __init__(self, exclude=(), one_file_system=None, identities=False, own=None, contents=None, device=None):
        """`one_file_system` is whether directories of other file systems are listed without their content: at any depth if it is true, directly
        below the directory if it is None. `own` is the device and inode of the output if it is a file, which gets no line. `contents` is what
        the key of each file has before its path, and `device` a device in place of that of the files."""
        self.identities, self.one_file_system, self.own, self.contents, self.device_of_files = identities, one_file_system, own, contents, device
        self.excluded = Excluded(exclude)
        self.device = os.stat(".").st_dev
        self.unread = False

    def say(self, path, reason):
        # The escapes of a manifest let no control byte reach a terminal.
        print(f"{OWN_NAME}: /{escape(path).decode()}: {reason}", file=sys.stderr)

    def names(self, directory):
        """The paths in a directory that a manifest can have, the last one first."""
        found = []
        for name in sorted(os.listdir(directory or b"."), reverse=True):
            path = directory + b"/" + name if directory else name
            if self.excluded.has(name, path):
                continue
            reason = defect(name, path)
            if reason:
                self.say(path, f"{reason}: left out")
            else:
                found.append(path)
        return found

    def is_elsewhere(self, path, state):
        """Whether a directory is in another file system, and is therefore listed without its content."""
        if self.one_file_system is False or state.st_dev == self.device:
            return False
        elsewhere = self.one_file_system or b"/" not in path
        if elsewhere:
            self.say(path, "another file system: taken without its content")
        return elsewhere

    def keywords(self, path, state):
        """The keywords of the node with this path and state, or None if it has no node in a manifest."""
        if stat.S_ISDIR(state.st_mode):
            return b" type=dir"
        if stat.S_ISLNK(state.st_mode):
            target = os.readlink(path)
            if 1 <= len(target) <= LONGEST_TARGET:
                return b" type=link link=" + escape(target)
            self.say(path, f"a link to a target of {len(target)} bytes, not 1 to {LONGEST_TARGET}: left out")
        elif stat.S_ISREG(state.st_mode) and (state.st_dev, state.st_ino) != self.own:
            return self.file_keywords(path, state)
        return None

    def file_keywords(self, path, state):
        """The keywords of a regular file, or None if its key is too long."""
        words = b" type=file"
        # A manifest has no numbers below 0, so a file with a ctime before 1970 has no identity.
        if self.identities and state.st_ctime_ns >= 0:
            device = state.st_dev if self.device_of_files is None else self.device_of_files
            words += b" dev=%d inode=%d ctime=%d size=%d" % (device, state.st_ino, state.st_ctime_ns, state.st_size)
        if self.contents is None:
            return words
        key = self.contents.rstrip(b"/") + b"/" + path
        if len(key) <= LONGEST_KEY:
            return words + b" contents=" + escape(key)
        self.say(path, f"contents of more than {LONGEST_KEY} bytes: left out")
        return None

    def node(self, path):
        """The keywords of the node at a path, or None, and the paths below it."""
        try:
            state = os.lstat(path)
            has_below = stat.S_ISDIR(state.st_mode) and not self.is_elsewhere(path, state)
            return self.keywords(path, state), self.names(path) if has_below else []
        except OSError as error:
            self.say(path, error.strerror)
            self.unread = True
        return None, []

    def lines(self):
        """The manifest's lines. A directory's content follows it directly: in the tree's order `/` counts as 0."""
        yield b"#mtree\n"
        if not self.identities:
            # NetBSD's mtree expects the root first. The canonical text does not have it.
            yield b". type=dir\n"
        left = self.names(b"")
        while left:
            path = left.pop()
            words, below = self.node(path)
            if words is not None:
                yield b"./" + escape(path) + words + b"\n"
            left.extend(below)
