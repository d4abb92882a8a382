"""Copies the part of a root tree in which ldconfig looks for libraries: conf files, directories, libraries and links.

`copy_root` copies everything that /etc/ld.so.conf, its includes and the system directories lead to, with the links on the way. It takes
the files with library names, all links, and the subdirectories of each of these directories. Subdirectories are copied without content,
except for glibc-hwcaps and the older subdirectories for processors. Files are hard links if possible, so nothing may be written into them.
"""

import fnmatch
import os
import shutil
import stat

import tool_modules  # noqa: F401
from elf_parts import library_of
from image_facts import LP64D_DIRS, MOST_LINKS, OLDER_CAPS, SYSTEM_DIRS, is_like_library

# Debian's ldconfig has the first two too, and that of RISC-V the others.
OTHER_DIRS = ["/lib/*-linux-gnu*", "/usr/lib/*-linux-gnu*", *LP64D_DIRS]


def mode_at(root, place):
    """The mode of what is at a path below the root, or 0."""
    try:
        return os.lstat(root + (place or "/")).st_mode
    except OSError:
        return 0


def resolve(root, text, passed=lambda place: None):
    """The place to which a text leads in a root tree, without links; None if it leads nowhere. Links are followed inside of the
    tree. Calls `passed` with each link and directory on the way."""
    left, place, followed = text.split("/"), "", 0
    while left:
        name = left.pop(0)
        if name in ("", "."):
            continue
        if name == "..":
            place = place.rpartition("/")[0]
            continue
        there = f"{place}/{name}"
        mode = mode_at(root, there)
        if not mode or not stat.S_ISDIR(mode_at(root, place)):
            return None
        passed(there)
        if not stat.S_ISLNK(mode):
            place = there
            continue
        followed += 1
        target = os.readlink(root + there)
        if followed > MOST_LINKS:
            return None
        left = target.split("/") + left
        place = "" if target.startswith("/") else place
    return place or "/"


class Copy:
    """A copy of some of a root tree in a directory."""

    def __init__(self, root, folder):
        self.root, self.folder = str(root).rstrip("/"), str(folder)
        self.listed = set()

    def take(self, place):
        """Copies what is at a path: a link, a directory without content, or a file."""
        source, mode = self.root + place, mode_at(self.root, place)
        if os.path.lexists(self.folder + place):
            return
        os.makedirs(os.path.dirname(self.folder + place), exist_ok=True)
        if stat.S_ISLNK(mode):
            os.symlink(os.readlink(source), self.folder + place)
        elif stat.S_ISDIR(mode):
            os.mkdir(self.folder + place)
        elif stat.S_ISREG(mode):
            try:
                os.link(source, self.folder + place)
            except OSError:
                shutil.copy2(source, self.folder + place)

    def walk(self, text):
        """Copies everything on the way of a text, and what it leads to. Returns the path."""
        place = resolve(self.root, text, self.take)
        if place and place != "/":
            self.take(place)
        return place

    def names(self, text):
        """The names in a directory."""
        place = self.walk(text)
        return sorted(os.listdir(self.root + place)) if place and stat.S_ISDIR(mode_at(self.root, place)) else []

    def directory(self, text):
        """Copies a directory of libraries, and those of processors below it."""
        place = self.walk(text)
        if place is None or place in self.listed:
            return
        self.listed.add(place)
        for name in self.names(text):
            there = f"{place.rstrip('/')}/{name}"
            mode = mode_at(self.root, there)
            if stat.S_ISDIR(mode) or stat.S_ISLNK(mode) or is_like_library(name):
                self.take(there)
            if stat.S_ISLNK(mode) and is_like_library(name):
                self.walk(there)
            if stat.S_ISDIR(mode) and name in OLDER_CAPS:
                self.directory(f"{text}/{name}")
        for name in self.names(f"{text}/glibc-hwcaps"):
            self.directory(f"{text}/glibc-hwcaps/{name}")

    def results(self, pattern):
        """The texts that match a pattern."""
        texts = [""]
        for part in filter(None, pattern.split("/")):
            plain = not set("*?[") & set(part)
            texts = [f"{text}/{name}" for text in texts for name in ([part] if plain else fnmatch.filter(self.names(text), part))]
        return texts

    def conf(self, text, met):
        """Copies a conf file and what it names."""
        place = self.walk(text)
        if place is None or place in met or not stat.S_ISREG(mode_at(self.root, place)):
            return
        met.add(place)
        with open(self.root + place, encoding="utf-8", errors="surrogateescape") as file:
            lines = [line.partition("#")[0].split() for line in file]
        for words in filter(None, lines):
            if words[0] == "include":
                for pattern in words[1:]:
                    whole = pattern if pattern.startswith("/") else f"{os.path.dirname(text)}/{pattern}"
                    for result in self.results(whole):
                        self.conf(result, met)
            else:
                self.directory(" ".join(words).partition("=")[0].rstrip())


def copy_root(root, folder):
    """Copies what ldconfig looks at in a root tree into a directory."""
    copy = Copy(root, folder)
    copy.conf("/etc/ld.so.conf", set())
    for text in SYSTEM_DIRS + [text for pattern in OTHER_DIRS for text in copy.results(pattern)]:
        copy.directory(text)


def library_in(path):
    """The ABI and the DT_SONAME, as text, of a shared object; None for another file."""
    try:
        with open(path, "rb") as file:
            library = library_of(file.fileno())
    except OSError:
        return None
    return library and library._replace(soname=os.fsdecode(library.soname))
