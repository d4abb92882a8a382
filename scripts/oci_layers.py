"""Layers of container images, for `scripts/layers` and `scripts/bench`: their tar files, random ones, and a plain reading of what a stack of
them gives, by the text of the OCI image specification ("Image Layer Filesystem Changeset", "Applying Changesets" and "Whiteouts").

The reading applies one layer after the other to a tree, member by member. It shares nothing with the program, whose contract says which
nodes a higher layer hides, in no order.
"""

import io
import tarfile
from typing import NamedTuple

MARK, OPAQUE, OF_AUFS = ".wh.", ".wh..wh..opq", ".wh..wh."
TYPES = {"file": tarfile.REGTYPE, "dir": tarfile.DIRTYPE, "link": tarfile.SYMTYPE}
NAMES = ("a", "b", "lib", "usr", "x")
DEEPEST = 4


class Node(NamedTuple):
    """What is at a path: a file with its content, a link with its target, or a directory."""

    kind: str
    text: str = ""


def above(path):
    """The paths of the directories above a path, the root's content first."""
    parts = path.split("/")
    return ["/".join(parts[:count]) for count in range(1, len(parts))]


def is_special(path):
    return any(part.startswith(MARK) for part in path.split("/"))


# ---- the plain reading


def remove(tree, path, itself=True):
    """Removes what is below a path, and what is at it. The root's path is empty."""
    for other in [other for other in tree if not path or other.startswith(path + "/")]:
        del tree[other]
    if itself:
        tree.pop(path, None)


def apply_mark(tree, path):
    """Whiteouts: `.wh.NAME` deletes NAME beside it, and `.wh..wh..opq` all siblings. Other names with `.wh..wh.` are those of AUFS itself."""
    folder, _, name = path.rpartition("/")
    if is_special(folder) or not name.startswith(MARK):
        return
    if name == OPAQUE:
        remove(tree, folder, itself=False)
    elif not name.startswith(OF_AUFS):
        remove(tree, f"{folder}/{name.removeprefix(MARK)}".lstrip("/"))


def apply_member(tree, path, node):
    """Changeset over existing files: a directory over a directory keeps what is in it; all else is removed and made again."""
    # A member is in a directory, whether that has a member of its own or not.
    for folder in above(path):
        if folder in tree and tree[folder].kind != "dir":
            del tree[folder]
    if node.kind != "dir":
        remove(tree, path)
    tree[path] = node


def by_text(layers):
    """The tree of a stack of layers, the lowest first. Whiteouts apply to lower layers only, so those of a layer come first."""
    tree = {}
    for layer in layers:
        for path in layer:
            apply_mark(tree, path)
        for path, node in layer.items():
            if not is_special(path):
                apply_member(tree, path, node)
    return tree


# ---- tar files


def in_order(chance, layer):
    """The members of a layer in a random order, each directory before what is in it."""
    left, made = chance.sample(sorted(layer), len(layer)), []
    while left:
        ready = [path for path in left if not set(above(path)) & set(left)]
        made += ready
        left = [path for path in left if path not in set(ready)]
    # Marks may come before or after what they are beside.
    return made


def tar_of(chance, layer):
    """A layer as a tar file."""
    out = io.BytesIO()
    with tarfile.open(fileobj=out, mode="w", format=tarfile.PAX_FORMAT) as tar:
        for path in in_order(chance, layer):
            kind, text = layer[path]
            member = tarfile.TarInfo(path)
            member.type, member.mode = TYPES[kind], 0o755 if kind == "dir" else 0o644
            content = text.encode() if kind == "file" else b""
            member.size, member.linkname = len(content), text if kind == "link" else ""
            tar.addfile(member, io.BytesIO(content))
    return out.getvalue()


def unpack(tar, folder):
    """Unpacks a layer as it is, with its marks."""
    folder.mkdir()
    with tarfile.open(fileobj=io.BytesIO(tar)) as members:
        for member in members:
            place = folder / member.name
            if member.isdir():
                place.mkdir()
            elif member.issym():
                place.symlink_to(member.linkname)
            else:
                place.write_bytes(members.extractfile(member).read())


# ---- random layers


def random_path(chance):
    return "/".join(chance.choices(NAMES, k=chance.randint(1, DEEPEST)))


def random_mark(chance, lower):
    """A mark: an opaque directory, or on a path of the layers below, or on one that may not be there."""
    path = chance.choice(sorted(lower)) if lower and chance.random() < 0.6 else random_path(chance)
    folder, _, name = path.rpartition("/")
    name = OPAQUE if chance.random() < 0.25 else f"{OF_AUFS}{name}" if chance.random() < 0.05 else f"{MARK}{name}"
    return f"{folder}/{name}".lstrip("/")


def random_layer(chance, number, lower):
    """A layer over others, in which each directory has a member of its own: nodes of every kind, and marks on anything, also on its own."""
    layer = {}

    def put(path, node):
        folders = above(path)
        # No kind but a directory has something below it, and a node stays what it is.
        if path not in layer and all(layer.get(folder, Node("dir")).kind == "dir" for folder in folders):
            layer.update({folder: Node("dir") for folder in folders})
            layer[path] = node

    for _ in range(chance.randint(0, 8)):
        path = random_path(chance)
        put(path, chance.choice((Node("file", f"{number} {path}"), Node("link", random_path(chance)), Node("dir"))))
    for _ in range(chance.choice((0, 0, 1, 2, 4)) if number else 0):
        put(random_mark(chance, lower), Node("file"))
    return layer


def random_layers(chance):
    layers = []
    for number in range(chance.randint(1, 6)):
        layers.append(random_layer(chance, number, by_text(layers)))
    return layers
