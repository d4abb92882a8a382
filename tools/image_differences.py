"""Names the differences between an image that the system's ldconfig updated and an update, by the names in docs/DIFFERENCES.md.

A cache says by the text of its generator which program wrote it. In an image with another cache no difference has a name.
"""

import re
import stat

from elf_parts import library_of
from image_cache import entries_of, generator_of
from image_facts import ABIS, GENERATOR, LP64D_DIRS, OLDER_CAPS, SYSTEM_DIRS, is_unfinished
from image_search import join, last, parent
from mtree_model import is_utf8

# The system's names its package in parentheses: `ldconfig (Debian GLIBC 2.36-9) stable release version 2.36`.
ANY_GENERATOR, OUR_GENERATOR = re.compile(rb"ldconfig \(.*\) .*release version .*", re.DOTALL), GENERATOR.partition(b")")[0]
# The bits of an entry's flags that say for which ABI it is. 0 is that of i386.
ABI_BITS = 0xFF00
# The ABIs that one ldconfig takes, by their bits: those of x86, of Arm and of RISC-V. ldconfig of another machine takes its own.
FAMILIES = {0x0000: "x86", 0x0300: "x86", 0x0800: "x86", 0x0900: "Arm", 0x0A00: "Arm", 0x0B00: "Arm", 0x0F00: "RISC-V", 0x1000: "RISC-V"}
OUR_BITS = {abi.flags & ABI_BITS for abi in ABIS.values()}
FAMILY_OF = {name: FAMILIES[abi.flags & ABI_BITS] for name, abi in ABIS.items()}
# The system's own directories with the name of an ABI are Debian's.
TRIPLET = re.compile(rb"[^-]+-linux-gnu[^/]*")


def family(entry):
    return FAMILIES.get(entry.flags & ABI_BITS, entry.flags & ABI_BITS)


def without_cap(folder):
    """The directory of a subdirectory for processors, and of another directory itself."""
    return folder.partition(b"/glibc-hwcaps/")[0]


def older_number(text, at):
    """The number that a name has from here, as an `int` of C, and where it ends."""
    end = at
    while text[end : end + 1].isdigit():
        end += 1
    return (int(text[at:end]) + 2**31) % 2**32 - 2**31, end


def compare_names(one, other, signed):
    """Compares names as glibc's `_dl_cache_libcmp` does: below, at or above 0. A name ends with a NUL; bytes may be signed."""
    one, other, at, there = one + b"\0", other + b"\0", 0, 0
    while one[at]:
        digits = one[at : at + 1].isdigit(), other[there : there + 1].isdigit()
        if all(digits):
            (number, at), (second, there) = older_number(one, at), older_number(other, there)
            if number != second:
                return number - second
        elif any(digits):
            return 1 if digits[0] else -1
        elif one[at] != other[there]:
            break
        else:
            at, there = at + 1, there + 1
    a, b = (byte - 256 if signed and byte > 127 else byte for byte in (one[at], other[there]))
    return a - b


def is_sorted_by_system(entries):
    """Whether entries are in the order in which the system's ldconfig writes them on some machine. Entries with equal names come in any order."""
    pairs = [(a.soname, b.soname) for a, b in zip(entries, entries[1:]) if a.soname != b.soname]
    return any(all(compare_names(a, b, signed) >= 0 for a, b in pairs) for signed in (True, False))


def is_by_system(cache):
    """Whether the system's ldconfig wrote a cache."""
    text = generator_of(cache)
    return bool(ANY_GENERATOR.fullmatch(text)) and not text.startswith(OUR_GENERATOR)


class Names:
    """The names of the differences in an image, for a plan of an update and the bytes of the cache that was found."""

    def __init__(self, folder, plan, cache):
        self.folder, self.image = folder, plan.image
        self.is_by_system = cache is not None and is_by_system(cache)
        self.wanted, self.found = entries_of(plan.cache), entries_of(cache) if self.is_by_system else []
        self.families = {family(entry) for entry in self.found}
        below = [join(top, name) for top in (b"/lib", b"/usr/lib") for name in self.image.children(self.image.directory(top)) if TRIPLET.fullmatch(name)]
        self.builtin = {self.image.directory(path) for path in [b"/lib", b"/usr/lib", *below, *map(str.encode, LP64D_DIRS)]}
        self.searched = {place.real for place in plan.places}
        named = {self.image.directory(path) for path in plan.conf_dirs}
        self.only_ours = {self.image.directory(path.encode()) for path in SYSTEM_DIRS} - self.builtin - named

    # What is at a path of the image.

    def real(self, path):
        """A path with its directory as it is without links, or None if that doesn't exist."""
        folder = self.image.directory(parent(path))
        return folder and join(folder, last(path))

    def library(self, path):
        """The ABI and the DT_SONAME of the library to which a path leads."""
        place = self.image.file(path)
        if place is None:
            return None
        with self.folder.naming(place), self.folder.file(b"/" + self.image.nodes[place].text) as file:
            return library_of(file.fileno())

    def soname(self, path):
        """The soname of the library to which a path leads: DT_SONAME, or the name of the file itself."""
        library = self.library(path)
        return library and (library.soname or last(self.image.file(path)))

    def is_there(self, path):
        """Whether a file, or a link to one beside it, is at a path whose last name the manifest may lack."""
        path = self.real(path)
        if path and stat.S_ISLNK(self.folder.mode_at(path)):
            target = self.folder.target(path)
            path = None if b"/" in target else join(parent(path), target)
        return bool(path) and stat.S_ISREG(self.folder.mode_at(path))

    def is_blocked(self, entry):
        """Whether something other than a link or this library is in the place of an entry's link."""
        place = self.real(join(parent(entry.path), entry.soname))
        mode = place and self.folder.mode_at(place)
        return bool(mode) and not stat.S_ISLNK(mode) and not (self.image.kind(place) == "file" and self.soname(place) == entry.soname)

    def is_link_for_file(self, path, soname):
        """Whether a link, with another name than the soname and the one for ld(1), is at a path and leads to a library with this soname."""
        place, name = self.real(path), last(path)
        is_for_ld = name.endswith(b".so") and soname.startswith(name)
        return bool(place) and self.image.kind(place) == "link" and name != soname and not is_for_ld and self.soname(place) == soname

    # The names.

    def of_pair(self, entry, others):
        """The name of a difference between two entries for one soname and one directory."""
        alike = [other for other in others if other != entry and other.soname == entry.soname and parent(other.path) == parent(entry.path)]
        if any(other.path == entry.path and other.flags & ABI_BITS == entry.flags & ABI_BITS == 0 for other in alike):
            return "i386"
        pairs = [other for other in alike if other.flags == entry.flags]
        if pairs and any(self.is_blocked(one) for one in (entry, *pairs)):
            return "blocked"
        if pairs and any(self.is_link_for_file(one.path, entry.soname) for one in (entry, *pairs)):
            return "choice"
        return None

    def of_removed(self, entry):
        """The name for an entry that an update removes."""
        if not self.is_by_system:
            return None
        if not entry.soname:
            # The entry of a library whose DT_SONAME is empty.
            return "nameless"
        if not is_utf8(entry.soname + entry.path):
            return "utf-8" if self.is_there(entry.path) else None
        library = self.library(entry.path)
        if entry.flags & ABI_BITS not in OUR_BITS or library and library.abi is None:
            return "machines" if self.image.file(entry.path) else None
        return self.of_library(entry) or self.of_pair(entry, self.wanted)

    def of_library(self, entry):
        """The name for an entry that leads to a library, because of that library."""
        file, library = self.image.file(entry.path), self.library(entry.path)
        if library is None:
            return None
        if library.soname == b"" and last(file) != entry.soname == last(entry.path):
            return "nameless"
        if library.soname not in (b"", entry.soname):
            return None
        if last(parent(entry.path)).decode() in OLDER_CAPS:
            return "older"
        if is_unfinished(last(file)):
            return "unfinished"
        folder = self.image.directory(without_cap(parent(entry.path)))
        return "folders" if folder in self.builtin - self.searched else None

    def of_added(self, entry):
        """The name for an entry that an update adds."""
        if not self.is_by_system:
            return None
        if self.image.directory(without_cap(parent(entry.path))) in self.only_ours:
            return "folders"
        if self.families and family(entry) not in self.families:
            return "machines"
        if any(not other.soname and parent(other.path) == parent(entry.path) for other in self.found) and self.soname(entry.path) == entry.soname:
            return "nameless"
        return self.of_pair(entry, self.found) or ("later" if self.leads_to_link(entry.path) else None)

    def leads_to_link(self, path):
        """Whether a link leads to a library by a further link that has the name of a soname."""
        place = self.real(path)
        target = place and self.image.target(place)
        next_one = target and self.real(target if target.startswith(b"/") else join(parent(place), target))
        return bool(next_one) and self.image.kind(next_one) == "link" and self.soname(next_one) == last(next_one)

    def of_link(self, path, target):
        """The name for a link that an update makes lead to this target."""
        if not self.is_by_system:
            return None
        if parent(path) in self.only_ours:
            return "folders"
        library, old = self.library(join(parent(path), target)), self.image.target(path)
        if library and self.families and FAMILY_OF.get(library.abi) not in self.families:
            return "machines"
        if old is None:
            return None
        if is_unfinished(old):
            return "unfinished"
        if b"/" not in old and self.is_link_for_file(join(parent(path), old), last(path)):
            return "choice"
        return "text" if self.image.file(path) == self.image.file(join(parent(path), target)) else None

    def of_order(self):
        """The name for another order of the entries that both have."""
        return "order" if self.is_by_system and is_sorted_by_system(self.found) else None
