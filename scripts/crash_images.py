"""The images of `scripts/crash`, and what may be in their files before and after an update."""

import itertools
import os

import tool_modules  # noqa: F401
from image_facts import AUX, CACHE, MANIFEST
from image_stamps import loaded, text
from made_elf import LIBRARY
from statuses import FAULTS
from unsynced import LINK, content_of

# Reports, manifests and kinds of images.
REPORT = b"1 libs, 0 links, %d files opened\n"
LINKED = b"link: /usr/lib/libz.so.1 -> libz.so.1.2\n1 libs, 1 links, %d files opened\n"
IDENTITY = "type=file dev=0 inode=7 ctime=3 size=251"
EMPTY = "#mtree\n"
PLAIN = f"#mtree\n./usr/lib/libz.so.1 {IDENTITY}\n"
PLANNED = f"#mtree\n./usr/lib/libz.so.1.2 {IDENTITY}\n"
WITH_LINK = f"#mtree\n./usr/lib/libz.so.1 type=link link=libz.so.1.2\n./usr/lib/libz.so.1.2 {IDENTITY}\n"
KINDS = ("cache", "bare", "left", "planned")
LAYERS_KIND = "layers"
# With -r: the link, a library that the old link leads to, the library that it is for, and the images.
SONAME, OLDER, NEWER = "usr/lib/libz.so.1", "usr/lib/libz.so.1.1", "usr/lib/libz.so.1.2"
ROOT_KINDS = ("root", "replaced")
# With -r and an auxiliary cache: the image, its directory, the auxiliary cache, and one that has the record of a file that is gone.
AUX_KIND, INSIDE, OWN_AUX = "aux", "root/", "state/aux"
OLD_AUX = text({(0, 7, 3, 99): ("x86-64", b"libq.so.1")})
# The number of a process that doesn't exist: it is above the largest one of Linux (2^22).
GONE, GONE_PROCESS = ".tmp0.4194305.1", "/proc/4194305"
# The temporary name of a link.
LINK_GONE = f"usr/lib/.ldconfig{GONE}"


def files_of(kind, old):
    """The files of an image, by their paths. `old` has its caches."""
    is_planned = kind == "planned"
    files = {"usr/lib/libz.so.1.2" if is_planned else "usr/lib/libz.so.1": LIBRARY.read_bytes()}
    files[MANIFEST] = (PLANNED if is_planned else PLAIN).encode()
    if kind != "bare":
        files |= old
    if kind in ("left", "planned"):
        files |= {CACHE + GONE: b"left\n", AUX + GONE: b"left\n"}
    if is_planned:
        files[MANIFEST + GONE] = b"left\n"
    return files


def put(folder, files):
    """Makes the files in a new directory. Content None is a directory."""
    folder.mkdir()
    for path, content in sorted(files.items()):
        if content is None:
            (folder / path).mkdir(parents=True, exist_ok=True)
        elif content.startswith(LINK):
            (folder / path).parent.mkdir(parents=True, exist_ok=True)
            (folder / path).symlink_to(os.fsdecode(content.removeprefix(LINK)))
        else:
            (folder / path).parent.mkdir(parents=True, exist_ok=True)
            (folder / path).write_bytes(content)


def found(folder):
    """The files and links of a directory, by their paths."""
    return {str(path.relative_to(folder)): content_of(path) for path in folder.rglob("*") if path.is_symlink() or path.is_file()}


def temporary(files):
    return sorted(path for path in files if ".tmp" in path)


class Wanted:
    """What the files of an image may contain before and after an update."""

    words = ("update",)
    # The path of the directory that is updated, and of the link that an earlier run has left there.
    inside, link_gone = "", LINK_GONE

    def __init__(self, kind, old, new):
        """`old` and `new` have both caches."""
        self.kind = kind
        manifests = (PLANNED.encode(), WITH_LINK.encode()) if kind == "planned" else (PLAIN.encode(),)
        self.contents = {MANIFEST: manifests} | {slot: (None if kind == "bare" else old[slot], new[slot]) for slot in (CACHE, AUX)}
        self.files = files_of(kind, old)
        # What an undisturbed update leaves.
        self.after = {path: content for path, content in self.files.items() if not path.endswith(GONE)}
        self.after |= {slot: contents[-1] for slot, contents in self.contents.items()}
        self.report = (LINKED if kind == "planned" else REPORT) % 1

    def slots(self, files):
        """Which manifest, cache and auxiliary cache these are: `old`, `new` or `torn`, and `same` if both manifests are one."""
        seen = self.seen(files)
        return tuple(self.slot(contents, seen.get(slot)) for slot, contents in self.contents.items())

    def seen(self, files):
        """What is compared of these files."""
        return files

    def trouble_in(self, folder):
        """What else is wrong after an update that nothing disturbs, or None."""
        return None

    def looks_first(self, run, call):
        """Whether a call looks at a file that the arguments name, before anything is read of the image."""
        return False

    def looks_for_folder(self, run, call):
        """Whether a call looks for a directory in the place of a file that the arguments name. If it can't be seen, the writing says why."""
        return False

    @staticmethod
    def slot(contents, content):
        words = ("old", "new") if len(contents) == 2 else ("same",)
        return words[contents.index(content)] if content in contents else "torn"

    def is_whole(self, slots):
        """All files are whole, and none is new if a file that is written earlier is old."""
        changed = [slot for slot in slots if slot != "same"]
        return "torn" not in slots and changed == sorted(changed, key=("new", "old").index)

    def is_done(self, slots):
        return "old" not in slots and "torn" not in slots

    def fault_lines(self, status):
        """What the output may be after this status."""
        return {f"fault: {FAULTS[status]}\n".encode()}

    def report_after(self, slots):
        """The report of the next update: links that are still planned are reported again, and a library without a cached record is opened again."""
        return (LINKED if slots[0] == "old" else REPORT) % (slots[2] != "new")


class LayersWanted(Wanted):
    """What the files of an image may contain before and after an update over two layers, of which the upper one removes a file."""

    words = ("layers", "base", "top")

    def __init__(self, old, new):
        super().__init__("planned", old, new)
        self.kind = LAYERS_KIND
        layers = {"base": (PLANNED + "./old type=file\n").encode(), "top": b"#mtree\n./.wh.old type=file\n"}
        self.files |= layers
        self.after |= layers

    def report_after(self, slots):
        """No layer has the link, so it is planned and reported each time."""
        return LINKED % (slots[2] != "new")


class RootWanted(Wanted):
    """What a link and the cache of a directory may be before and after `ldconfig -r`."""

    words, report = ("-r", "."), b""

    def __init__(self, kind, old, new):
        """`old` and `new` are caches."""
        self.kind = kind
        has_old = kind == "replaced"
        self.contents = {SONAME: (LINK + b"libz.so.1.1" if has_old else None, LINK + b"libz.so.1.2"), CACHE: (old if has_old else None, new)}
        self.files = {NEWER: LIBRARY.read_bytes()}
        if has_old:
            self.files |= {OLDER: LIBRARY.read_bytes(), SONAME: self.contents[SONAME][0], CACHE: old, CACHE + GONE: b"left\n", LINK_GONE: LINK + b"left"}
        self.after = {path: content for path, content in self.files.items() if not path.endswith(GONE)}
        self.after |= {slot: contents[-1] for slot, contents in self.contents.items()}

    def fault_lines(self, status):
        return super().fault_lines(status) | {b""}

    def report_after(self, slots):
        return b""


def records_in(aux):
    """The size of each file that has a record, and what the record says of it. Its device, inode and ctime are others in each copy of a directory."""
    stamps, damaged_at = loaded(aux)
    return f"corrupt at {damaged_at}" if damaged_at is not None else sorted((identity[-1], what) for identity, what in stamps.items())


class AuxWanted(RootWanted):
    """What `ldconfig -r` with an auxiliary cache may leave of a link, the cache and the auxiliary cache."""

    words, inside, link_gone = ("-r", INSIDE, "--aux-cache", OWN_AUX), INSIDE, INSIDE + LINK_GONE

    def __init__(self, old, new):
        super().__init__("replaced", old, new)
        self.kind = AUX_KIND
        self.contents, self.files, self.after = ({INSIDE + path: what for path, what in paths.items()} for paths in (self.contents, self.files, self.after))
        records = [(LIBRARY.stat().st_size, ("x86-64", b"libz.so.1"))] * 2
        self.contents[OWN_AUX] = records_in(OLD_AUX), records
        self.files |= {OWN_AUX: OLD_AUX, OWN_AUX + GONE: b"left\n"}
        self.after[OWN_AUX] = records

    def looks_first(self, run, call):
        """From the lock to the first closing of the auxiliary cache calls look whether it is one."""
        after = itertools.dropwhile(lambda one: one.name != "flock", run.calls)
        looking = itertools.takewhile(lambda one: not (one.name == "close" and one.path.endswith(f"/{OWN_AUX}")), after)
        return any(one is call for one in looking)

    def looks_for_folder(self, run, call):
        """It is the first call on the auxiliary cache after its first closing."""
        own = (one for one in run.calls if one.path.endswith(f"/{OWN_AUX}"))
        after = itertools.dropwhile(lambda one: one.name != "close", own)
        return call is next(itertools.islice(after, 1, None), None)

    def seen(self, files):
        return files | ({OWN_AUX: records_in(files[OWN_AUX])} if OWN_AUX in files else {})

    def trouble_in(self, folder):
        states = [os.stat(folder / INSIDE / path) for path in (OLDER, NEWER)]
        identities = {(state.st_dev, state.st_ino, state.st_ctime_ns, state.st_size) for state in states}
        has = loaded((folder / OWN_AUX).read_bytes())[0].keys()
        return None if has == identities else f"the auxiliary cache has the identities {sorted(has)}; the files have {sorted(identities)}"
