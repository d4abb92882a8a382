"""Plans an update of a directory, for `tools/update-image` and `tools/check-image`. Nothing in the directory is changed here.

The program reads and writes in the directory in which it runs, and follows no link. So it runs in a private directory, with copies of the
parts of files that it looks at: conf files, and the headers, dynamic sections and string tables of the libraries in the search directories.
docs/DECISIONS.md says why.
"""

import contextlib
import fcntl
import os
import re
import shutil
import stat
import struct
import subprocess
import sys
import tempfile
from collections import namedtuple
from pathlib import Path

sys.dont_write_bytecode = True
import mtree_model  # noqa: E402
from elf_parts import looked_at  # noqa: E402
import image_facts  # noqa: E402
from image_facts import LARGEST_CONF, LONGEST_CACHE, is_library_name  # noqa: E402
from image_listing import Walk, working_directory  # noqa: E402
from image_search import Conf, Image, Node, components, join, last, parent, searched  # noqa: E402

HERE = Path(__file__).resolve().parent
# scripts/install builds a command with its modules into one file. The program is beside that file, or is found as a command. In the
# repository it is where `rt` builds it.
IS_INSTALLED = HERE.is_file()
BESIDE, BUILT = HERE.parent / "ldconfig-image", HERE.parent / "crates/ldconfig/out/ldconfig"
INSTALLED = BESIDE if BESIDE.exists() else shutil.which("ldconfig-image") or BESIDE
PROGRAM = Path(os.environ.get("LDCONFIG") or (INSTALLED if IS_INSTALLED else BUILT)).absolute()
MANIFEST, CACHE, AUX = (b"/" + path.encode() for path in (image_facts.MANIFEST, image_facts.CACHE, image_facts.AUX))
KINDS = {stat.S_IFLNK: "a symbolic link", stat.S_IFDIR: "a directory", stat.S_IFREG: "a regular file", stat.S_IFIFO: "a pipe"}
# The kinds of files that a manifest has.
TREE_KINDS = (stat.S_IFREG, stat.S_IFDIR, stat.S_IFLNK)
# The number of bytes that are copied at once.
PIECE = 2**20
# The keys of the program's own files and their temporary files, and where it finds files of the image that have such a key.
OWN_KEYS = re.compile(b"(%s)(\\.tmp.*)?" % b"|".join(re.escape(path[1:]) for path in (MANIFEST, CACHE, AUX)), re.DOTALL)
APART = ".update-image.apart"
# The name of a private directory below TMPDIR.
BEFORE, AFTER = "update-image.", ".private"

HELP_ONE_FILE_SYSTEM = "list each directory of another file system without its content (default: those directly below DIRECTORY)"
# The program's report, the planned links (targets by paths in the tree), the cache, and the image with its search directories and those of
# them that its conf files name.
Plan = namedtuple("Plan", "report links cache image places conf_dirs")


class Trouble(Exception):
    """An error: a line for the error output, and the exit status."""

    def __init__(self, line, status=1):
        super().__init__(line)
        self.line, self.status = line, status


def check_outputs():
    """Ends the script if a standard stream is closed. Otherwise a file that it opens could become its output."""
    if sys.stdin is None or sys.stdout is None or sys.stderr is None:
        sys.exit(f"{sys.argv[0]}: standard input, output or error output: closed")


def shown(path):
    """A path for messages: the escapes of a manifest let no control byte reach a terminal."""
    return mtree_model.escape(os.fsencode(path)).decode()


def for_stream(data, stream):
    """Lines of the program as a stream gets them: as they are or, on a terminal, with escapes for what isn't printable or isn't UTF-8."""
    if not stream.isatty():
        return data
    characters = data.decode(errors="surrogateescape")
    return b"".join(b if char == "\n" or char.isprintable() else mtree_model.escape(b) for char in characters for b in [char.encode(errors="surrogateescape")])


def kind_of(mode):
    return KINDS.get(stat.S_IFMT(mode), "a special file")


# ---- the directory


class Folder:
    """A directory whose parts are opened one by one from its open directory, so no link is followed."""

    def __init__(self, name):
        self.name = name
        with self.naming(b""):
            self.root = os.open(name, os.O_RDONLY | os.O_DIRECTORY)
        self.path, self.opened = b"/", os.dup(self.root)

    def shown(self, path):
        """A path in the directory, after the directory's own path, for messages."""
        return shown(self.name) if path in (b"", b"/") else shown(self.name).rstrip("/") + shown(path)

    @contextlib.contextmanager
    def naming(self, path):
        """Turns the error of a call into a message that names the path."""
        try:
            yield
        except OSError as error:
            raise Trouble(f"{self.shown(path)}: {error.strerror}") from error

    def refuse(self, path, mode, wanted):
        raise Trouble(f"{self.shown(path)}: {kind_of(mode)} in place of {wanted}")

    def mode_at(self, path):
        """The type and mode of what is at a path, or 0."""
        try:
            return os.stat(last(path), dir_fd=self.directory(parent(path)), follow_symlinks=False).st_mode
        except FileNotFoundError:
            return 0

    def directory(self, path):
        """The open directory at a path. It stays open until the next call for another one."""
        if path == self.path:
            return self.opened
        opened, place = os.dup(self.root), b""
        try:
            for name in components(path):
                place += b"/" + name
                mode = os.stat(name, dir_fd=opened, follow_symlinks=False).st_mode
                if not stat.S_ISDIR(mode):
                    self.refuse(place, mode, "a directory")
                below = os.open(name, os.O_RDONLY | os.O_DIRECTORY | os.O_NOFOLLOW, dir_fd=opened)
                os.close(opened)
                opened = below
        except BaseException:
            os.close(opened)
            raise
        os.close(self.opened)
        self.path, self.opened = path, opened
        return opened

    def file(self, path):
        """Opens the regular file at a path."""
        folder, name = self.directory(parent(path)), last(path)
        mode = os.stat(name, dir_fd=folder, follow_symlinks=False).st_mode
        if stat.S_ISREG(mode):
            opened = os.open(name, os.O_RDONLY | os.O_NOFOLLOW | os.O_NONBLOCK, dir_fd=folder)
            mode = os.fstat(opened).st_mode
            if stat.S_ISREG(mode):
                return open(opened, "rb")
            os.close(opened)
        return self.refuse(path, mode, "a regular file")

    def target(self, path):
        """The target of the link at a path, or None if nothing is there. Anything else is an error."""
        mode = self.mode_at(path)
        if mode and not stat.S_ISLNK(mode):
            self.refuse(path, mode, "a link")
        return os.readlink(last(path), dir_fd=self.directory(parent(path))) if mode else None

    def cache(self, most=LONGEST_CACHE):
        """The bytes of the cache, at most one more than `most`. None if it is missing, or is a link, which a new cache replaces."""
        with self.naming(CACHE):
            mode = self.mode_at(parent(CACHE)) and self.mode_at(CACHE)
            if not mode or stat.S_ISLNK(mode):
                return None
            with self.file(CACHE) as file:
                return file.read(most + 1)


# ---- manifests


def manifest_of(folder, exclude, one_file_system):
    """The manifest of a directory, as tools/manifest writes it with these options."""
    try:
        with working_directory(folder.root):
            walk = Walk(exclude, one_file_system or None)
            text = b"".join(walk.lines())
    except OSError as error:
        raise Trouble(f"{shown(folder.name)}: {error.strerror}") from error
    if walk.unread:
        raise Trouble(f"{shown(folder.name)}: its manifest isn't complete; --exclude PATTERN leaves out what can't be read")
    return text


def unescape(word):
    return re.sub(rb"\\([0-7]{3})", lambda escape: bytes([int(escape[1], 8)]), word) if b"\\" in word else word


def node_of(line):
    """The path and the node of a line that tools/manifest or the program wrote, without its identity."""
    path, kind, *words = line.split(b" ")
    path, kind = unescape(path[1:]), kind.removeprefix(b"type=").decode()
    if kind == "link":
        return path, Node("link", unescape(words[0].removeprefix(b"link=")))
    return path, Node("file", path[1:]) if kind == "file" else Node("dir")


class Manifest:
    """A manifest's text with its nodes by their paths, and its canonical lines."""

    def __init__(self, text, is_ours):
        self.text, self.nodes, self.lines, self.tree = text, {}, set(), {}
        if is_ours:
            self.lines = set(text.split(b"\n"))
            self.nodes = dict(map(node_of, text.split(b"\n")[2:-1]))
            return
        # If the text is malformed, the program reports it.
        with contextlib.suppress(mtree_model.Bad):
            self.tree = mtree_model.read(text)
            self.lines = set(mtree_model.canonical(self.tree).split(b"\n"))
            self.nodes = {b"/" + b"/".join(path): Node(*node) for path, node in self.tree.items()}

    def for_program(self, moved, blocked):
        """The manifest that the program reads: with other keys in place of some, and a directory at each of the paths `blocked`."""
        if not moved and not blocked:
            return self
        tree = mtree_model.read(self.text) | {tuple(components(path)): mtree_model.Node("dir") for path in blocked}
        tree |= {path: node._replace(text=moved[node.text]) for path, node in tree.items() if node.kind == "file" and node.text in moved}
        return Manifest(mtree_model.canonical(dict(sorted(tree.items()))), is_ours=False)

    def links_added(self, text):
        """The links that a canonical text has and this one lacks: their targets by their paths."""
        if text == self.text:
            return {}
        added = dict(map(node_of, (line for line in text.split(b"\n") if line not in self.lines)))
        if any(node.kind != "link" for node in added.values()):
            raise Trouble("the program's manifest has new lines that are not links; nothing was changed")
        return {path: node.text for path, node in added.items()}


# ---- the private directory


class Copies:
    """Copies of an image's files in the private directory, by their keys. Each has the file's length and the parts that are looked at."""

    def __init__(self, folder, work):
        self.folder, self.work, self.made = folder, Path(work), set()
        # The new keys of files whose keys are those of the program's own files, by their old keys.
        self.moved = {}

    def copy(self, key, parts_of):
        """Copies these parts of a file, and returns the place of the copy."""
        names = components(key)
        path = b"/" + b"/".join(names)
        if OWN_KEYS.fullmatch(path[1:]):
            self.moved[key] = APART.encode() + path
        place = self.work / os.fsdecode(self.moved.get(key, path[1:]))
        # The program rejects a key with `..`.
        if b".." in names or (key, parts_of) in self.made:
            return place
        with self.folder.naming(path):
            source = self.folder.file(path)
        with source, private(self.work):
            place.parent.mkdir(parents=True, exist_ok=True)
            with open(os.open(place, os.O_WRONLY | os.O_CREAT, 0o600), "wb") as copy:
                copy_parts(source.fileno(), copy.fileno(), parts_of(source.fileno()))
        self.made.add((key, parts_of))
        return place

    def library(self, key):
        self.copy(key, library_parts)

    def __getitem__(self, key):
        """The bytes of a conf file that the program reads."""
        place = self.copy(key, conf_parts)
        with open(place if place.exists() else os.devnull, "rb") as file:
            return file.read(LARGEST_CONF + 1), None


def conf_parts(_opened):
    """The part of a conf file that is looked at: the program reads no longer one."""
    return [(0, LARGEST_CONF + 1)]


def library_parts(opened):
    try:
        return looked_at(opened)
    except (ValueError, OverflowError, OSError, struct.error):
        return [(0, os.fstat(opened).st_size)]


@contextlib.contextmanager
def private(work):
    """Turns the error of a call into a message that names the private directory."""
    try:
        yield
    except OSError as error:
        raise Trouble(f"{shown(work)}, a private directory (TMPDIR says where): {error.strerror}") from error


@contextlib.contextmanager
def private_directory():
    """A directory in one of this run below TMPDIR, on which it holds a lock. Those of killed runs are removed first: no process locks them.
    The directory itself isn't locked, since the program locks the directory in which it runs."""
    with private(tempfile.gettempdir()), contextlib.ExitStack() as stack:
        for name in os.listdir(tempfile.gettempdir()):
            if re.fullmatch(re.escape(BEFORE) + "[a-z0-9_]{8}" + re.escape(AFTER), name):
                remove_unlocked(os.path.join(tempfile.gettempdir(), name))
        work = None
        # A directory that isn't locked yet may be removed by another run.
        while work is None or not is_locked(work, stack):
            work = stack.enter_context(tempfile.TemporaryDirectory(prefix=BEFORE, suffix=AFTER, ignore_cleanup_errors=True))
        inside = os.path.join(work, "image")
        os.mkdir(inside)
        yield inside


def is_locked(work, stack):
    """Locks a new directory until the stack is closed. Says whether it is still there. Where there are no locks, nobody removes it."""
    try:
        opened = os.open(work, os.O_RDONLY | os.O_DIRECTORY)
    except FileNotFoundError:
        return False
    stack.callback(os.close, opened)
    try:
        fcntl.flock(opened, fcntl.LOCK_EX | fcntl.LOCK_NB)
    except BlockingIOError:
        return False
    except OSError:
        pass
    return os.path.isdir(work)


def remove_unlocked(work):
    """Removes a private directory of this user, unless a process holds a lock on it or it can't be locked."""
    with contextlib.suppress(OSError):
        opened = os.open(work, os.O_RDONLY | os.O_DIRECTORY | os.O_NOFOLLOW)
        try:
            fcntl.flock(opened, fcntl.LOCK_EX | fcntl.LOCK_NB)
            if os.fstat(opened).st_uid == os.geteuid():
                shutil.rmtree(work, ignore_errors=True)
        finally:
            os.close(opened)


def copy_parts(source, copy, parts):
    """Copies parts of an open file to their places in another one of the same length, in which the rest is a hole."""
    size = os.fstat(source).st_size
    os.truncate(copy, size)
    for at, end in parts:
        while (at := next_data(source, at)) < min(end, size):
            piece = os.pread(source, min(PIECE, end - at), at)
            at += os.pwrite(copy, piece, at) or PIECE


def next_data(opened, at):
    """The first offset from here at which a file has data, or its end."""
    try:
        return os.lseek(opened, at, os.SEEK_DATA)
    except (OSError, OverflowError):
        return os.fstat(opened).st_size


def copy_looked_at(image, folder, work):
    """Copies what an update of this image looks at. Returns the search directories, and what the conf files name."""
    image.contents = copies = Copies(folder, work)
    conf_dirs = Conf(image).dirs
    places, _ = searched(image, conf_dirs)
    for place in sorted({place.real for place in places}):
        linked = [file for link in image.named(place, "link") if (file := image.file(link))]
        for file in image.named(place, "file") + linked:
            copies.library(image.nodes[file].text)
    return places, conf_dirs


def special_files(image, folder, places):
    """The paths in the search directories at which a pipe, a socket or a device has a library name."""
    found = []
    for place in sorted({place.real for place in places}):
        # What isn't as the manifest says is reported when a link is made there.
        with contextlib.suppress(OSError, Trouble):
            names = map(os.fsencode, os.listdir(folder.directory(place)))
            unlisted = [path for name in names if is_library_name(name) and image.kind(path := join(place, name)) is None]
            found += [path for path in unlisted if mtree_model.is_utf8(path) and stat.S_IFMT(folder.mode_at(path)) not in (0, *TREE_KINDS)]
    return found


def run_program(work, command="update"):
    """Runs the program in a directory, and returns its output. If its status isn't 0, its lines are passed on as an error."""
    try:
        ran = subprocess.run([PROGRAM, command], cwd=work, stdin=subprocess.DEVNULL, capture_output=True)
    except OSError as error:
        raise Trouble(f"{PROGRAM}: {error.strerror}" + ("" if IS_INSTALLED else "; scripts/first-run makes it")) from error
    sys.stderr.write(for_stream(ran.stderr, sys.stderr).decode(errors="replace"))
    if ran.returncode:
        sys.stdout.write(for_stream(ran.stdout, sys.stdout).decode(errors="replace"))
        # A status below 0 is that of a program that was stopped.
        raise Trouble(f"the program ended with status {ran.returncode}; nothing was changed", max(ran.returncode, 1))
    return ran.stdout


def plan_of(folder, manifest):
    """The plan of an update of a directory with this manifest."""
    image = Image(manifest.nodes, {})
    with private_directory() as work:
        places, conf_dirs = copy_looked_at(image, folder, work)
        # A manifest has no special files, and a link can't take their place either.
        manifest = manifest.for_program(image.contents.moved, special_files(image, folder, places))
        (Path(work) / image_facts.MANIFEST).write_bytes(manifest.text)
        report = run_program(work)
        links = manifest.links_added((Path(work) / image_facts.MANIFEST).read_bytes())
        cache = (Path(work) / CACHE.decode()[1:]).read_bytes()
    return Plan(report, links, cache, image, places, conf_dirs)
