"""Where an update looks in an image: the nodes of a manifest, where paths lead, the conf files, and the searched directories.

It is written from docs/FORMATS.md and docs/DECISIONS.md and shares nothing with the program. `scripts/model` compares both on synthetic
images. The caller supplies the contents of files by their keys, as pairs of the bytes and what they are.
"""

import re
from collections import namedtuple

from image_facts import LARGEST_CONF, LONGEST_PATH, MOST_DEPTH, MOST_LINKS, is_library_name
from image_facts import SYSTEM_DIRS as SYSTEM_TEXTS

SYSTEM_DIRS = [text.encode() for text in SYSTEM_TEXTS]

# A directory, a file with its key and perhaps its identity (device, inode, ctime, size), or a link with its target.
Node = namedtuple("Node", "kind text identity", defaults=(b"", None))
# A file or a link by its name, with the soname and the ABI of its library.
Library = namedtuple("Library", "name soname abi")
Place = namedtuple("Place", "written real cap")

# ---- images and paths


def join(folder, name):
    return folder + name if folder == b"/" else folder + b"/" + name


def parent(path):
    return path[: path.rindex(b"/")] or b"/"


def last(path):
    return path[path.rindex(b"/") + 1 :]


def components(text):
    return [part for part in text.split(b"/") if part not in (b"", b".")]


class Image:
    """The nodes by their paths, the contents by their keys, and perhaps cached records by the identities of files. A content comes with what it
    is: (ABI, DT_SONAME), or a defect."""

    def __init__(self, nodes, contents, stamps=None):
        self.nodes, self.contents, self.stamps, self.names = nodes, contents, stamps or {}, {b"/": set()}
        for path, node in nodes.items():
            if node.kind == "dir":
                self.names.setdefault(path, set())
            while path != b"/":
                self.names.setdefault(parent(path), set()).add(last(path))
                path = parent(path)

    def kind(self, path):
        node = self.nodes.get(path)
        return node.kind if node else "dir" if path in self.names else None

    def children(self, folder):
        return sorted(self.names.get(folder, ()))

    def content(self, file):
        return self.contents[self.nodes[file].text]

    def what(self, file):
        """What a file is: by the cached record of its identity, or else by its content."""
        return self.stamps.get(self.nodes[file].identity) or self.content(file)[1]

    def target(self, path):
        return self.nodes[path].text if self.kind(path) == "link" else None

    def resolve(self, text, follow_libraries=False):
        """The path to which a text leads, without links; None if it leads nowhere."""
        left, place, followed = components(text), b"/", 0
        while left:
            name = left.pop(0)
            there = parent(place) if name == b".." else join(place, name)
            if self.kind(place) != "dir" or self.kind(there) is None:
                return None
            if self.kind(there) != "link":
                place = there
                continue
            followed += 1
            if followed > MOST_LINKS or (is_library_name(name) and not follow_libraries):
                return None
            left = components(self.target(there)) + left
            place = b"/" if self.target(there).startswith(b"/") else place
        return place

    def directory(self, text):
        place = self.resolve(text)
        return place if self.kind(place) == "dir" else None

    def file(self, text):
        place = self.resolve(text, follow_libraries=True)
        return place if self.kind(place) == "file" else None

    def named(self, folder, kind):
        """What is of this kind in a directory and has a library name."""
        return [join(folder, name) for name in self.children(folder) if is_library_name(name) and self.kind(join(folder, name)) == kind]

    def libraries(self, folder, kind):
        """The libraries in a directory: files, or links to them. The soname is DT_SONAME, or the name of the file itself."""
        pairs = [(path, self.file(path)) for path in self.named(folder, kind)]
        found = [(last(path), last(file), self.what(file)) for path, file in pairs if file]
        return [Library(name, what[1] or own, what[0]) for name, own, what in found if isinstance(what, tuple)]


def tokens(name):
    """The loader's order: a byte is below a number, and numbers compare by value."""
    return [(1, int(part)) if part.isdigit() else (0, part[0]) for part in re.findall(rb"[0-9]+|[^0-9]", name, re.DOTALL)]


def name_order(name):
    return tokens(name), name


# ---- the conf file and the places


class Conf:
    """The directories that /etc/ld.so.conf names, and what is reported of it."""

    def __init__(self, image):
        self.image, self.dirs, self.reports, self.met = image, [], [], set()
        real = image.resolve(b"/etc/ld.so.conf")
        if real:
            self.visit(b"/etc/ld.so.conf", real, 0)

    def visit(self, written, real, depth):
        is_file = self.image.kind(real) == "file"
        content = self.image.content(real)[0] if is_file else b""
        large = len(content) > LARGEST_CONF
        faults = (not is_file, "NotFile"), (real in self.met, "Repeated"), (depth > MOST_DEPTH, "TooDeep"), (large, "TooLarge")
        fault = next((kind for holds, kind in faults if holds), None)
        if fault:
            self.reports.append((written, fault))
            return
        self.met.add(real)
        for line in content.split(b"\n"):
            line = line.partition(b"#")[0].strip(b" \t\v\f\r")
            if line.startswith((b"include ", b"include\t")):
                for pattern in re.split(rb"[ \t]+", line)[1:]:
                    for text, place in self.results(written, pattern):
                        self.visit(text, place, depth + 1)
            elif line.startswith((b"hwcap ", b"hwcap\t")):
                self.reports.append((written, "Hwcap"))
            else:
                self.directory(line)

    def directory(self, text):
        if b"=" in text:
            text = text.partition(b"=")[0].rstrip(b" \t")
            self.reports.append((text, "Equals"))
        if text and not text.startswith(b"/"):
            self.reports.append((text, "Relative"))
        elif text:
            text = text.rstrip(b"/") or b"/"
            if len(text) > LONGEST_PATH:
                self.reports.append((text, "LongPath"))
            else:
                self.dirs.append(text)

    def results(self, file, pattern):
        """The texts that match a pattern, with the paths to which they lead."""
        texts = [b"" if pattern.startswith(b"/") else file[: file.rindex(b"/")]]
        for component in pattern.removeprefix(b"/").split(b"/"):
            texts = [text + b"/" + name for text in texts for name in self.choices(text, component)]
        return [(text, place) for text in sorted(texts) if (place := self.image.resolve(text))]

    def choices(self, text, component):
        if not set(b"*?[") & set(component):
            return [component]
        folder, wanted, hidden = self.image.resolve(text), matcher(component), component.startswith(b".")
        names = [name for name in self.image.children(folder) if wanted.fullmatch(name) and (hidden or not name.startswith(b"."))]
        return [name for name in names if not (is_library_name(name) and self.image.kind(join(folder, name)) == "link")]


def matcher(component):
    """A component of a pattern as an expression of `re`."""
    made, at = b"", 0
    while at < len(component):
        byte, at = component[at : at + 1], at + 1
        start = at + (component[at : at + 1] in (b"!", b"^"))
        end = component.find(b"]", start + 1)
        if byte == b"[" and end >= 0:
            ranges = re.findall(rb"(.)-(.)|(.)", component[start:end], re.DOTALL)
            members = {c for low, high, one in ranges for c in range((low or one)[0], (high or one)[0] + 1)}
            members = set(range(256)) - members if start > at else members
            made += b"(?:" + b"|".join(b"\\x%02x" % c for c in members) + b")" if members else b"(?!)"
            at = end + 1
        else:
            made += {b"*": b".*", b"?": b"."}.get(byte) or re.escape(byte)
    return re.compile(made, re.DOTALL)


def searched(image, dirs):
    """The places, and those of these directories that lead to none."""
    kept, places = {}, []
    for text in dirs + SYSTEM_DIRS:
        if image.directory(text):
            kept.setdefault(image.directory(text), text)
    for real, text in kept.items():
        places.append(Place(text, real, None))
        below = join(text, b"glibc-hwcaps")
        for name in image.children(image.directory(below)):
            there = image.directory(join(below, name))
            if there and not name.startswith(b"."):
                places.append(Place(join(below, name), there, name))
    return places, [text for text in dirs if not image.directory(text)]
