"""Mutants: edits of one file of a crate, and what they change in it. For `scripts/wrong-bodies`."""

import os
import re
from dataclasses import dataclass, field

FUNCTION = re.compile(r"( *)(?:pub(?:\([\w ]+\))? )?(?:const )?(?:unsafe )?(?:extern \"C\" )?fn (\w+)")
CLAUSE = re.compile(r"\s*(?:requires|ensures|decreases|ghost)\b")
HEAD = re.compile(r"(?:&(?:'\w+ )?(?:mut )?)?(?:\w+::)*(\w+)")


class BadEdit(Exception):
    """Why an edit can't be applied."""


@dataclass(frozen=True)
class Function:
    """A function whose body a mutant changes: its path as a check takes it, its lines in the file, and their text."""

    path: str
    name: str
    lines: range
    text: str

    def calls(self, other):
        return re.search(rf"\b{other.name}\b", self.text) is not None


@dataclass
class Mutant:
    """An edit of a crate."""

    crate: str
    edit: str
    file: str = ""
    pairs: list = field(default_factory=list)

    def __post_init__(self):
        old = None
        with open(self.edit, encoding="utf-8") as handle:
            for line in handle.read().split("\n"):
                if line.startswith("file: "):
                    if self.file:
                        raise BadEdit("it names two files")
                    self.file = line[6:].strip()
                elif line.startswith("old: "):
                    old = line[5:]
                elif line.startswith("new:"):
                    if not old:
                        raise BadEdit("a line `new:` has no `old:`")
                    self.pairs.append((old, line[4:].removeprefix(" ")))
                    old = None
        if not self.file.startswith(("src/", "specs/", "proofs/")) or not self.pairs:
            raise BadEdit("it names no file of src/, specs/ or proofs/, or no text")

    @property
    def name(self):
        return f"{os.path.basename(self.crate)}/{os.path.basename(self.edit)}"

    def applied(self, text):
        """The changed text of the file, and the numbers of the changed lines."""
        lines = []
        for old, new in self.pairs:
            if text.count(old) != 1:
                raise BadEdit(f"the text occurs {text.count(old)} times, and not once: {old.strip()}")
            lines.append(text[: text.index(old)].count("\n"))
            text = text.replace(old, new)
        return text, lines

    def read(self):
        """The file's text before and after, and the numbers of the changed lines."""
        path = f"{self.crate}/{self.file}"
        if not os.path.exists(path):
            raise BadEdit(f"there is no file {self.file}")
        with open(path, encoding="utf-8") as handle:
            text = handle.read()
        return text, *self.applied(text)

    def changes(self):
        """What a check of the mutant first asks for: the functions whose bodies alone it changes, or else None with the paths of the modules
        that it may change the meaning of; no path stands for the whole crate."""
        text, _, changed = self.read()
        if not self.file.startswith("src/"):
            return None, modules_that_cite(self.crate, text.split("\n"), changed)
        lines = text.split("\n")
        found = [function_of(lines, number, module_of(self.file)) for number in changed]
        return (sorted({it.path: it for it in found}.values(), key=lambda it: it.path), []) if all(found) else (None, [module_of(self.file)])


def module_of(file):
    """The path of the module that a file of src/ has; empty for the crate's root."""
    path = file[len("src/") :].removesuffix(".rt").removesuffix("/mod")
    return "" if path in ("lib", "main") else path.replace("/", "::")


def modules_that_cite(crate, lines, changed):
    """The modules of src/ that name one of the definitions of specs/ that these lines are in."""
    names = {definition_of(lines, number) for number in changed}
    found = []
    for at, _, files in os.walk(f"{crate}/src"):
        for file in sorted(files):
            with open(f"{at}/{file}", encoding="utf-8") as handle:
                text = handle.read()
            if any(name and re.search(rf"(?<![\w-]){re.escape(name)}(?![\w-])", text) for name in names):
                found.append(module_of(os.path.relpath(f"{at}/{file}", crate)))
    return sorted(found) if None not in names and all(found) else []


def definition_of(lines, number):
    """The name of the definition that a line of an .antt file is in, if it has one."""
    for line in reversed(lines[: number + 1]):
        name = re.match(r"(?:(?:pub|abbrev|unfoldable|opaque|data|record)\s+)*([^\s:(){},]+)\s*(?:[^:]*)[:=]", line)
        if name and not line.startswith("--"):
            return name[1]
    return None


def function_of(lines, number, module):
    """The function in whose body a line is, or None where the line is in no body: in a signature, a clause or another item, or in a macro."""
    for start in range(number, -1, -1):
        head = FUNCTION.match(lines[start])
        if head:
            break
        if re.match(r"\}|macro_rules!", lines[start]):
            return None
    else:
        return None
    body = next((it for it in range(start, len(lines)) if lines[it].endswith("{") and not CLAUSE.match(lines[it])), len(lines))
    end = next((it for it in range(body, len(lines)) if lines[it] == head[1] + "}"), len(lines))
    owner = owner_of(lines, start) if head[1] else module
    if not body < number < end or owner is None:
        return None
    return Function("::".join(filter(None, (owner, head[2]))), head[2], range(start, end + 1), "\n".join(lines[body : end + 1]))


def owner_of(lines, start):
    """How a check names the impl that a method is in: by its type and its trait, without their modules; None for a trait or a macro."""
    for line in reversed(lines[:start]):
        if re.match(r"(?:unsafe )?impl\b", line):
            subject = without_parameters(re.sub(r"^(?:unsafe )?impl", "", line)).rstrip("{ ")
            parts = re.split(r"\sfor\s", subject)
            return HEAD.match(parts[-1])[1] + (trait_name(parts[0]) if len(parts) > 1 else "")
        if re.match(r"\}|macro_rules!|(?:pub(?:\(\w+\))? )?trait\b", line):
            return None
    return None


def without_parameters(text):
    """The text after the type parameters that it begins with, if it does."""
    text, depth = text.strip(), 0
    if not text.startswith("<"):
        return text
    for at, byte in enumerate(text):
        depth += (byte == "<") - (byte == ">" and text[at - 1] != "-")
        if not depth:
            return text[at + 1 :].strip()
    return text


def trait_name(text):
    """A trait's name, and after it those of its arguments, as in FromNoMemory."""
    head = HEAD.match(text)
    arguments = re.split(r",\s*", text[head.end() :].strip()[1:-1])
    return head[1] + "".join(HEAD.match(it)[1] for it in arguments if it and not it.startswith("'"))
