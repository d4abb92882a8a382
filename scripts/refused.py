"""Runs a program and refuses allocations, for `scripts/memory`: one call of malloc or realloc answers that no memory is there, or it and
all calls after it. The calls are stopped by breakpoints, so that no compiler is needed. It uses ptrace(2), on x86-64 only."""

import os
import signal
import struct
import sys
from dataclasses import dataclass, field

sys.dont_write_bytecode = True
from traced import AT_CALL, GO_ON, NAMES, OPTIONS, SET_OPTIONS, TO_CALL, TRACE_ME, libc, ptrace  # noqa: E402

PEEK_USER, POKE_USER, STEP, LET_GO = 3, 6, 9, 17
# Where registers are in the user area: what a call answers, its number, the next instruction, and the top of the stack.
RAX, ORIGINAL_RAX, RIP, RSP = 80, 120, 128, 152
BREAKPOINT = b"\xcc"
# xor eax, eax; ret: a function that answers 0.
ANSWERS_0 = b"\x31\xc0\xc3"
ALLOCATORS = ("malloc", "realloc", "calloc")
ENTRY = 9
# Calls that change a directory, a file or what somebody reads.
WRITING = {"write", "pwrite64", "mkdir", "unlink", "rename", "symlink", "fchmod", "fchown", "ftruncate"}


def symbols(path, names):
    """The addresses of functions in a shared object, from its start."""
    with open(path, "rb") as file:
        whole = file.read()
    sections_at, size, count = struct.unpack_from("<Q", whole, 40)[0], *struct.unpack_from("<HH", whole, 58)
    sections = [struct.unpack_from("<IIQQQQIIQQ", whole, sections_at + i * size) for i in range(count)]
    found = {}
    for kind, at, length, link in ((it[1], it[4], it[5], it[6]) for it in sections):
        if kind != 11:
            continue
        texts = sections[link][4]
        for symbol in range(at, at + length, 24):
            name_at, _, _, section, value, _ = struct.unpack_from("<IBBHQQ", whole, symbol)
            name = whole[texts + name_at : whole.index(b"\0", texts + name_at)].decode()
            if name in names and section:
                found[name] = value
    return found


@dataclass
class Ran:
    """The result of a run. If a signal has ended it, the status is 128 plus the signal."""

    status: int = None
    # The number of allocations, and how many of them came before the first call that writes anything. -1: not looked for.
    count: int = 0
    before_writing: int = -1
    # Allocations of these numbers were refused.
    refused: list = field(default_factory=list)


class Refuses:
    """One run of a program in a directory. Its outputs are open files, and its input is a file's path."""

    def __init__(self, words, folder, outputs, given="/dev/null"):
        self.words, self.folder, self.outputs, self.given = words, folder, outputs, given

    def run(self, which=None, and_later=False, looks=False):
        """Runs it to its end, and refuses the allocation of this number, from 0. With `looks` it finds the first writing call."""
        self.pid = os.fork()
        if self.pid == 0:
            self.begin()
        self.ran, self.which, self.and_later, self.places = Ran(), which, and_later, {}
        try:
            self.follow(TO_CALL if looks else GO_ON)
        finally:
            if self.ran.status is None:
                os.kill(self.pid, signal.SIGKILL)
                os.waitpid(self.pid, 0)
        return self.ran

    def begin(self):
        """In the new process: becomes the program."""
        try:
            os.chdir(self.folder)
            for number, there in enumerate((os.open(self.given, os.O_RDONLY), *self.outputs)):
                os.dup2(there, number)
            os.closerange(3, 64)
            ptrace(TRACE_ME, 0)
            os.execve(self.words[0], self.words, {"LC_ALL": "C"})
        finally:
            os._exit(126)

    def wait(self):
        """The signal at which the program has stopped, or None if it has ended."""
        _, status = os.waitpid(self.pid, 0)
        if os.WIFSTOPPED(status):
            return os.WSTOPSIG(status)
        self.ran.status = os.WEXITSTATUS(status) if os.WIFEXITED(status) else 128 + os.WTERMSIG(status)
        return None

    def follow(self, onward):
        if self.wait() is None:
            return
        ptrace(SET_OPTIONS, self.pid, None, OPTIONS)
        with open(f"/proc/{self.pid}/mem", "r+b", 0) as self.memory:
            if not self.reach_entry():
                return
            for place in self.functions():
                self.places[place] = self.put(place, BREAKPOINT)
            passed, enters = 0, False
            while True:
                ptrace(onward, self.pid, None, passed)
                stop = self.wait()
                if stop is None:
                    return
                passed = 0
                if stop == AT_CALL:
                    enters = not enters
                    self.look(enters)
                elif stop == signal.SIGTRAP and self.get(RIP) - 1 in self.places:
                    if not self.allocation(self.get(RIP) - 1):
                        return
                elif stop != signal.SIGTRAP:
                    passed = stop

    def reach_entry(self):
        """Runs to the program's first instruction. By then all libraries are there."""
        with open(f"/proc/{self.pid}/auxv", "rb") as words:
            entry = dict(struct.iter_unpack("<QQ", words.read()))[ENTRY]
        was = self.put(entry, BREAKPOINT)
        ptrace(GO_ON, self.pid)
        if self.wait() is None:
            return False
        self.put(entry, was)
        self.set(RIP, entry)
        return True

    def functions(self):
        """Where the functions that allocate are in the running program."""
        with open(f"/proc/{self.pid}/maps", encoding="utf-8") as lines:
            base, path = next((line.split("-")[0], line.split()[-1]) for line in lines if "/libc." in line or "/libc-" in line)
        return [int(base, 16) + value for value in symbols(path, ALLOCATORS).values()]

    def look(self, enters):
        """Notes the first call that writes."""
        if enters and self.ran.before_writing < 0 and NAMES.get(self.get(ORIGINAL_RAX)) in WRITING:
            self.ran.before_writing = self.ran.count

    def allocation(self, place):
        """The program has called a function that allocates. Returns whether it is still followed."""
        number = self.ran.count
        self.ran.count += 1
        if number != self.which:
            self.pass_by(place)
            return True
        self.ran.refused.append(number)
        for at, was in self.places.items():
            self.put(at, ANSWERS_0 if self.and_later else was)
        if self.and_later:
            self.set(RIP, place)
        else:
            top = self.get(RSP)
            self.set(RAX, 0)
            self.set(RIP, struct.unpack("<Q", os.pread(self.memory.fileno(), 8, top))[0])
            self.set(RSP, top + 8)
        # The rest runs by itself.
        ptrace(LET_GO, self.pid)
        self.wait()
        return False

    def pass_by(self, place):
        """Does the instruction in whose place the breakpoint is."""
        self.put(place, self.places[place])
        self.set(RIP, place)
        ptrace(STEP, self.pid)
        if self.wait() is not None:
            self.put(place, BREAKPOINT)

    def put(self, place, new):
        """Puts bytes in a place. Returns those that were there, as many as of a function that answers 0."""
        was = os.pread(self.memory.fileno(), len(ANSWERS_0), place)
        os.pwrite(self.memory.fileno(), new, place)
        return was

    def get(self, register):
        return libc.ptrace(PEEK_USER, self.pid, register, None) % 2**64

    def set(self, register, value):
        ptrace(POKE_USER, self.pid, register, value)
