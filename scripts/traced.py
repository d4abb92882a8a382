"""Runs a program system call by system call, for `scripts/crash`. Any call can be read, fail, write less or be left out, and the program can
be killed before any call. It uses ptrace(2), on x86-64 only.
"""

import ctypes
import errno
import os
import platform
import signal
import struct
import sys
from dataclasses import dataclass, field

TRACE_ME, PEEK, GET_REGISTERS, SET_REGISTERS, GO_ON, TO_CALL, SET_OPTIONS = 0, 2, 12, 13, 7, 24, 0x4200
# Options of ptrace: stops at calls are marked, and a traced program ends with this one.
OPTIONS = 0x1 | 0x100000
AT_CALL = signal.SIGTRAP | 0x80
# The positions of these among the 27 registers.
COUNT, RESULT, NUMBER = 12, 10, 15
ARGUMENTS = (14, 13, 12, 7, 9, 8)
REGISTERS = struct.Struct("27Q")
AT_FOLDER = 2**32 - 100
NAMES = {
    0: "read", 1: "write", 2: "open", 3: "close", 4: "stat", 5: "fstat", 6: "lstat", 8: "lseek", 9: "mmap", 10: "mprotect", 11: "munmap",
    12: "brk", 17: "pread64", 18: "pwrite64", 20: "writev", 25: "mremap", 32: "dup", 35: "nanosleep", 40: "sendfile", 59: "execve",
    72: "fcntl", 73: "flock", 74: "fsync", 75: "fdatasync", 76: "truncate", 77: "ftruncate", 79: "getcwd", 82: "rename", 83: "mkdir",
    86: "link", 87: "unlink", 88: "symlink", 89: "readlink", 90: "chmod", 91: "fchmod", 92: "chown", 93: "fchown", 217: "getdents64",
    228: "clock_gettime", 230: "clock_nanosleep", 231: "exit_group", 257: "openat", 258: "mkdirat", 262: "newfstatat", 263: "unlinkat",
    264: "renameat", 265: "linkat", 266: "symlinkat", 268: "fchmodat", 277: "sync_file_range", 285: "fallocate", 306: "syncfs",
    316: "renameat2", 318: "getrandom", 332: "statx", 334: "rseq", 60: "exit", 302: "prlimit64", 131: "sigaltstack", 13: "rt_sigaction",
    14: "rt_sigprocmask", 21: "access", 39: "getpid", 158: "arch_prctl", 218: "set_tid_address", 273: "set_robust_list", 439: "faccessat2",
}  # fmt: skip
# Calls whose first arguments are a directory and a path from there, a path, and an open file.
FROM_FOLDER = {"openat", "mkdirat", "newfstatat", "unlinkat", "statx", "fchmodat", "faccessat2"}
ALONE = {
    "open", "stat", "lstat", "mkdir", "unlink", "rename", "chmod", "chown", "truncate", "link", "symlink", "readlink", "access", "execve",
}  # fmt: skip
WITH_FILE = {
    "read", "write", "close", "fstat", "lseek", "pread64", "pwrite64", "writev", "flock", "fsync", "fdatasync", "ftruncate", "fchmod",
    "fchown", "getdents64", "sync_file_range", "fallocate", "syncfs",
}  # fmt: skip

libc = ctypes.CDLL(None, use_errno=True)
libc.ptrace.restype = ctypes.c_long
libc.ptrace.argtypes = (ctypes.c_long, ctypes.c_long, ctypes.c_void_p, ctypes.c_void_p)


@dataclass
class Call:
    """A call of the system. Paths are whole: what is reached by an open directory has the directory's path before it."""

    name: str
    # How many calls of this name came before it.
    turn: int
    arguments: tuple
    # The path in its arguments, or the path of the open file in them, and the second path of a rename or a link.
    path: str = ""
    other: str = ""
    # Whether the path is that of an open file.
    by_number: bool = False
    # The inode of the open file in its arguments, and the offset at which it writes.
    inode: int = 0
    offset: int = 0
    data: bytes = b""
    result: int = None
    # Whether the call was changed.
    is_changed: bool = False

    def __str__(self):
        return f"{self.name} {self.turn} {self.path}{' -> ' + self.other if self.other else ''}"


@dataclass
class Run:
    """The result of a run. If a signal has ended it, the status is 128 plus the signal."""

    status: int = None
    said: bytes = b""
    calls: list = field(default_factory=list)


class Fails:
    """The call isn't made, and fails with this error."""

    def __init__(self, number):
        self.number = number

    def __str__(self):
        return errno.errorcode[self.number]


class Writes:
    """The call writes at most this many bytes."""

    def __init__(self, count):
        self.count = count

    def __str__(self):
        return f"writes {self.count}"


class Seems:
    """The call isn't made, and seems to succeed."""

    def __str__(self):
        return "is left out"


class Stops:
    """The program is killed before the call."""

    def __str__(self):
        return "stop"


def ptrace(request, pid, address=None, data=None):
    ctypes.set_errno(0)
    result = libc.ptrace(request, pid, address, data)
    if result == -1 and ctypes.get_errno():
        raise OSError(ctypes.get_errno(), os.strerror(ctypes.get_errno()))
    return result


class Traced:
    """One run of a program in a directory, with its standard output in a file."""

    def __init__(self, words, folder, output, act=None):
        self.words, self.folder, self.output = words, folder, output
        # Decides before each call how it is changed, or None.
        self.act = act or (lambda call: None)
        self.turns = {}

    def run(self):
        """Runs it to its end."""
        self.pid = os.fork()
        if self.pid == 0:
            self.begin()
        run = Run()
        try:
            self.follow(run)
        finally:
            if run.status is None:
                self.kill()
        return run

    def begin(self):
        """In the new process: becomes the program. The error output leads nowhere."""
        try:
            os.chdir(self.folder)
            nothing = os.open("/dev/null", os.O_RDWR)
            os.dup2(nothing, 0)
            os.dup2(self.output, 1)
            os.dup2(nothing, 2)
            os.closerange(3, 64)
            ptrace(TRACE_ME, 0)
            os.execve(self.words[0], self.words, {"LC_ALL": "C"})
        finally:
            os._exit(126)

    def kill(self):
        try:
            os.kill(self.pid, signal.SIGKILL)
            os.waitpid(self.pid, 0)
        except OSError:
            pass

    def wait(self):
        """The signal at which the program has stopped, or None with its status if it has ended."""
        _, status = os.waitpid(self.pid, 0)
        if os.WIFSTOPPED(status):
            return os.WSTOPSIG(status), None
        return None, os.WEXITSTATUS(status) if os.WIFEXITED(status) else 128 + os.WTERMSIG(status)

    def follow(self, run):
        stop, run.status = self.wait()
        if run.status is not None:
            return
        ptrace(SET_OPTIONS, self.pid, None, OPTIONS)
        call, action, passed = None, None, 0
        while True:
            ptrace(TO_CALL, self.pid, None, passed)
            stop, run.status = self.wait()
            if run.status is not None:
                return
            passed = 0
            if stop != AT_CALL:
                passed = stop if stop != signal.SIGTRAP else 0
            elif call is None:
                call = self.entered()
                run.calls.append(call)
                action = self.act(call)
                if isinstance(action, Stops):
                    os.kill(self.pid, signal.SIGKILL)
                    _, run.status = self.wait()
                    return
                self.change(call, action)
            else:
                self.left(call, action)
                call = None

    def registers(self):
        space = ctypes.create_string_buffer(REGISTERS.size)
        ptrace(GET_REGISTERS, self.pid, None, ctypes.addressof(space))
        return list(REGISTERS.unpack(space.raw))

    def set_registers(self, values):
        space = ctypes.create_string_buffer(REGISTERS.pack(*values), REGISTERS.size)
        ptrace(SET_REGISTERS, self.pid, None, ctypes.addressof(space))

    def change(self, call, action):
        if action is None:
            return
        call.is_changed = True
        values = self.registers()
        if isinstance(action, Writes):
            values[COUNT] = action.count
        else:
            # No call has this number.
            values[NUMBER] = 2**64 - 1
        self.set_registers(values)

    def left(self, call, action):
        values = self.registers()
        if isinstance(action, (Fails, Seems)):
            values[RESULT] = (2**64 - action.number) if isinstance(action, Fails) else 0
            self.set_registers(values)
        result = values[RESULT]
        call.result = result - 2**64 if result >= 2**63 else result
        if call.result >= 0:
            self.note_done(call)

    def note_done(self, call):
        """What is known only after the call: which file was opened, how much was written."""
        if call.name in ("open", "openat"):
            call.inode = self.inode_of(call.result)
        elif call.name in ("write", "pwrite64"):
            call.data = call.data[: call.result]

    def entered(self):
        values = self.registers()
        name = NAMES.get(values[NUMBER], f"call_{values[NUMBER]}")
        self.turns[name] = self.turns.get(name, -1) + 1
        call = Call(name, self.turns[name], tuple(values[i] for i in ARGUMENTS))
        given = call.arguments
        if name in FROM_FOLDER:
            call.path = self.whole(given[0], self.text(given[1]))
            # An empty path is that of the open file.
            call.by_number = not self.text(given[1])
        elif name in ("renameat", "renameat2", "linkat"):
            call.path, call.other = self.whole(given[0], self.text(given[1])), self.whole(given[2], self.text(given[3]))
        elif name == "symlinkat":
            call.path, call.other = self.text(given[0]), self.whole(given[1], self.text(given[2]))
        elif name == "symlink":
            call.path, call.other = self.text(given[0]), self.whole(AT_FOLDER, self.text(given[1]))
        elif name in ALONE:
            call.path = self.whole(AT_FOLDER, self.text(given[0]))
            if name in ("rename", "link"):
                call.other = self.whole(AT_FOLDER, self.text(given[1]))
        elif name in WITH_FILE:
            call.path, call.by_number = self.path_of(given[0]), True
        if call.by_number:
            call.inode = self.inode_of(given[0])
        if name in ("write", "pwrite64"):
            call.data = self.bytes_at(given[1], given[2])
            call.offset = given[3] if name == "pwrite64" else self.offset_of(given[0])
        return call

    def whole(self, folder, path):
        """A path from a directory's number, with the paths of open directories in the place of their numbers."""
        if path.startswith("/proc/self/fd/"):
            number, _, rest = path.removeprefix("/proc/self/fd/").partition("/")
            return os.path.normpath(f"{self.path_of(int(number))}/{rest}") if rest else f"{path}"
        if path.startswith("/"):
            return os.path.normpath(path)
        base = os.readlink(f"/proc/{self.pid}/cwd") if folder % 2**32 == AT_FOLDER else self.path_of(folder)
        return os.path.normpath(f"{base}/{path}")

    def path_of(self, number):
        try:
            return os.readlink(f"/proc/{self.pid}/fd/{number % 2**32}")
        except OSError:
            return ""

    def inode_of(self, number):
        try:
            return os.stat(f"/proc/{self.pid}/fd/{number % 2**32}").st_ino
        except OSError:
            return 0

    def offset_of(self, number):
        try:
            with open(f"/proc/{self.pid}/fdinfo/{number}", encoding="ascii") as lines:
                return int(lines.readline().split()[1])
        except OSError:
            return 0

    def bytes_at(self, address, count):
        with open(f"/proc/{self.pid}/mem", "rb", 0) as memory:
            memory.seek(address)
            return memory.read(count)

    def text(self, address):
        """A text that ends with a zero byte. It may end directly before memory that isn't there."""
        if address == 0:
            return ""
        text = b""
        while b"\0" not in text:
            here = address + len(text)
            text += self.bytes_at(here, 4096 - here % 4096)
        return os.fsdecode(text.partition(b"\0")[0])


def can_trace():
    """Why nothing can be traced here, or None."""
    if sys.platform != "linux" or platform.machine() != "x86_64":
        return "this machine isn't x86-64 Linux"
    try:
        with open("/dev/null", "wb") as nothing:
            run = Traced(["/bin/true"], "/", nothing.fileno()).run()
    except OSError as error:
        return f"no program can be traced here ({error.strerror})"
    return None if run.status == 0 and any(call.name == "exit_group" for call in run.calls) else "no program can be traced here"
