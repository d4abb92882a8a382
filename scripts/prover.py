"""Checks crates by the kit's prover, whole or one function alone. For `scripts/wrong-bodies`."""

import os
import re
import shutil
import signal
import subprocess
from dataclasses import dataclass

PARTS = ("src", "specs", "proofs")
# What the prover says of a limit of its own.
LIMITS = re.compile(r"antt ran out of (?:stack|the (?:steps|memory) that the check of one declaration may)|(?:outgrew the memory limit|stopped at the step limit) \(")
NOT_READ = r"is not in scope|has no field|is no name|operand is missing|expected the end|cannot continue"
NAMED = re.compile(r"(?:note: )?(?:\./)?proofs/.*(?:has no field|is not in scope|has no `|was not admitted)")


def kit():
    """The folder of the kit."""
    said = subprocess.run(["rt", "doc"], capture_output=True, text=True, check=True)
    return os.path.dirname(said.stdout.strip())


def crates_of(top):
    """What crates.txt says: the libraries that each crate names, the lowest crate first."""
    with open(f"{top}/crates.txt", encoding="utf-8") as handle:
        lines = [line.split("#")[0].strip() for line in handle]
    return {line.partition(":")[0].split()[0]: line.partition(":")[2].split() for line in lines if line}


def below(crates, name):
    """The repository's libraries below a crate, the lowest first."""
    wanted, left = set(), [name]
    while left:
        more = {it for it in crates[left.pop()] if it in crates} - wanted
        wanted |= more
        left += more
    return [it for it in crates if it in wanted]


def build(top, room, names):
    """Has `rt ci` prove the libraries below these crates in a folder, or take what earlier runs on this machine have passed. Returns the
    folder that has them."""
    crates = crates_of(top)
    wanted = {it for name in names for it in below(crates, name)}
    os.makedirs(f"{room}/repository/.git")
    os.makedirs(f"{room}/libraries")
    shutil.copy2(f"{top}/HANDLES", f"{room}/repository/HANDLES")
    with open(f"{room}/repository/crates.txt", "w", encoding="utf-8") as handle:
        handle.writelines(f"{name}: {' '.join(uses)}\n" for name, uses in crates.items() if name in wanted)
    for name in wanted:
        copy_parts(f"{top}/crates/{name}", f"{room}/repository/crates/{name}")
        os.symlink(f"{room}/repository/crates/{name}/out/rlib/{name}.rlib", f"{room}/libraries/{name}.rlib")
    if wanted and subprocess.run(["rt", "ci"], cwd=f"{room}/repository").returncode:
        raise SystemExit("the libraries below aren't proved")
    return f"{room}/libraries"


def copy_parts(crate, to):
    for part in PARTS:
        if os.path.isdir(f"{crate}/{part}"):
            shutil.copytree(f"{crate}/{part}", f"{to}/{part}")


@dataclass
class Said:
    """What a check said, and how it ended."""

    status: int
    lines: list

    def is_proved(self):
        return self.status == 0

    def is_refused(self):
        return self.status == 1 and bool(re.match(r"logic=not-proved|only=\d+ proved=\d+", self.lines[-1]))

    def is_at_limit(self):
        return self.status == 3 and any(LIMITS.search(line) for line in self.lines)

    def unread(self, file):
        """The first line about a text that the prover can't read, of `file` or of the crate's source: it is no error of a proof."""
        for line in self.lines:
            at = re.match(r"(?:\./)?(\S+?):\d+:\d+: error: (?:(`[^`]*`): )?(.*)", line)
            if at and (at[1] == file or at[1].startswith(("src/", "specs/"))) and (not at[2] or re.search(NOT_READ, re.sub(r"`[^`]*`", "", at[3]))):
                return line
        return next((line for line in self.lines if re.search(r"\berror\[[\w-]+\]", line)), None) if self.status == 1 else None

    def missing(self):
        """The path that no function has, where the check ended for it."""
        found = [re.match(r"rattle: error: `\w+` has (?:no function|\w+ functions) `([^`]*)`", line) for line in self.lines]
        return next((it[1] for it in found if it), None)

    def reasons(self):
        """The lines that say what isn't proved, (file, line, text), without those of proofs that only name what is gone; and whether there
        are any lines at all."""
        # A long line goes on in the next one, which is indented.
        whole = [line + after if after.startswith("  ") else line for line, after in zip(self.lines, [*self.lines[1:], ""])]
        told = [(re.match(r"(?:note: )?(?:\./)?(\S+?):(\d+):\d+:", line), line) for line in whole]
        told = [(at[1], int(at[2]), line) for at, line in told if at and (": error" in line or line.startswith("note: "))]
        return [it for it in told if not NAMED.match(it[2])], bool(told)

    def function(self, path):
        """The end of the line on the function of this path, or None without exactly one."""
        found = [it[1] for it in (re.match(rf"fn (?:\S+::)?{re.escape(path)}: (.*)", line) for line in self.lines) if it]
        return found[0] if len(found) == 1 else None


class Prover:
    """Checks a crate over the libraries in a folder, each in NAME.rlib."""

    def __init__(self, top, libraries):
        self.top, self.libraries, self.kit, self.crates = top, libraries, kit(), crates_of(top)

    def words(self, name, folder):
        uses = self.crates[name]
        words = ["--crate-name", name, "src/main.rt" if os.path.exists(f"{folder}/src/main.rt") else "src/lib.rt"]
        for used in ["std", *uses]:
            words += ["--extern", f"{used}={self.libraries if used in self.crates else self.kit + '/rlibs'}/{used}.rlib"]
        words += ["-L", f"dependency={self.kit}/rlibs", "-L", f"dependency={self.libraries}"]
        return words + ["--antt-project", f"{self.kit}/rattle/logic/antt-project.json", "--logic-built", f"{self.kit}/logic_built", "--links", f"{name}="]

    def check(self, name, folder, kept, only=(), jobs=1):
        """Checks the crate in a folder, which keeps its work in the folder `kept`: the functions or modules of these paths and what they
        call, or with none the whole crate."""
        words = [f"{self.kit}/bin/rattle", "check", *self.words(name, folder), "--incremental", kept, "--jobs", str(jobs)]
        for path in only:
            words += ["--only", path]
        for _ in range(2):
            ran = subprocess.run(words, cwd=folder, stdin=subprocess.DEVNULL, stdout=subprocess.PIPE, stderr=subprocess.STDOUT, text=True, errors="replace")
            # Most likely for memory: once more.
            if ran.returncode != -signal.SIGKILL:
                break
        return Said(ran.returncode, ran.stdout.rstrip("\n").split("\n"))


def copy_kept(kept, to):
    """A copy of the work of checks, by links where a check replaces the files and both are on one disk."""

    def copy(one, other):
        if one.endswith(".oantt"):
            try:
                return os.link(one, other)
            except OSError:
                pass
        return shutil.copy2(one, other)

    shutil.copytree(kept, to, copy_function=copy)
