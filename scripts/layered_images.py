"""Large layered images for `scripts/bench layers`: the manifests of their layers, the lowest first, as the nodes' keywords by their paths."""

from oci_layers import MARK, OPAQUE

FILE, DIR = "type=file", "type=dir"
MOST_LAYERS = 64
# A path of this many components is the longest that a manifest can have below it a name of ten bytes and a mark of it.
DEEP = 2040


def text_of(nodes):
    """The manifest of a layer."""
    return "\n".join(["#mtree", *(f"./{path} {words}" for path, words in nodes.items()), ""])


def under_layers(count, names):
    """A base of this many nodes with these libraries, under 63 layers of 100 nodes: a library, documents of the base again, new ones, and marks
    on others of the base."""
    base = {"usr": DIR, "usr/lib": DIR, **{f"usr/lib/{name}": FILE for name in names}}
    documents = [f"usr/share/doc/package{at // 16:06}/file{at % 16:02}" for at in range(count - len(base))]
    layers = [base | dict.fromkeys(documents, FILE)]
    for number in range(1, MOST_LAYERS):
        # Each layer takes its own documents of the base.
        own = documents[100 * number : 100 * number + 60]
        marks = {f"{folder}/{MARK}{name}": FILE for folder, _, name in (path.rpartition("/") for path in own[:10])}
        new = {f"usr/share/doc/new{number:02}/file{at:02}": FILE for at in range(39)}
        layers.append({f"usr/lib/libtop{number}.so.1": FILE, **marks, **dict.fromkeys(own[10:], FILE), **new})
    return layers


def merged(layers):
    """The nodes of such layers together: their marks are on files, and no kind comes over another one."""
    nodes = {}
    for layer in layers:
        for path in layer:
            folder, _, name = path.rpartition("/")
            nodes.pop(f"{folder}/{name.removeprefix(MARK)}", None)
        nodes |= {path: words for path, words in layer.items() if MARK not in path}
    return nodes


def large_layers(count):
    """64 layers of this many nodes, with lines of 127 bytes. Each layer of the upper half has the paths of one of the lower half, since a manifest
    has at most 2^26 bytes."""
    half = [{f"usr/share/{number:02}/{at // 64:06}/{'f' * 88}{at:06}": FILE for at in range(count)} for number in range(MOST_LAYERS // 2)]
    return half + half


def marked_layers(count):
    """A layer of this many files in one directory, and one with a mark on each of them."""
    names = [f"file{at:06}" for at in range(count)]
    return [{f"opt/{name}": FILE for name in names}, {f"opt/{MARK}{name}": FILE for name in names}]


def deep_layers(count):
    """The same with half as many marks as files, below a path of the greatest depth."""
    deep = "d/" * (DEEP - 1)
    return [{f"{deep}f{at:05}": FILE for at in range(count)}, {f"{deep}{MARK}f{at:05}": FILE for at in range(0, count, 2)}]


def opaque_layers(count):
    """64 layers of this many nodes, each of which makes the root opaque."""
    return [{OPAQUE: FILE, **{f"opt/{number:02}/file{at:06}": FILE for at in range(count)}} for number in range(MOST_LAYERS)]
