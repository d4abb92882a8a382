"""The texts of docs/PROVED.md and docs/DEFINITIONS.md, from the sources and the texts in docs/parts/: `pages(TOP)`.

docs/PROVED.md has each public function that has clauses: the first sentence of its comment, and the names of its clauses, each with the
first definition that it cites. docs/DEFINITIONS.md has each definition of specs/ that such a clause cites, directly or by another
definition, with the comment above it. Definitions without a comment, and those that no such clause cites, are only named.
"""
import functools
import pathlib
import re

WORD = r"[A-Za-z_][A-Za-z_0-9]*"
# The names of definitions and modules may have more characters than a word, as in ◌≡◌.
TOKEN = re.compile(r"[A-Za-z_][A-Za-z_0-9'-]*")
USE = re.compile(r"^\s*(?:ghost )?use Rattle\.(\w+)\.(specs|proofs)\.([\w.]+)\.\{([^}]*)\}", re.M)
HEAD = re.compile(r"^( *)(?:abbrev |unfoldable )?pub (?:(record|data) )?([A-Za-z_][A-Za-z_0-9'-]*)")
# Definitions that only say when a fact holds.
WRAPPERS = {"IfKnown", "Relates", "OfKnown", "OfContent", "IfBad"}
# Between the head of docs/parts/PROVED.md and the notes on crates, and after these.
NOTES, TAIL = "<!-- notes on crates -->", "<!-- after the tables -->"
FIELD = re.compile(r"^  (?:pub )?([A-Za-z_][A-Za-z_0-9'-]*(?: [A-Za-z_][A-Za-z_0-9'-]*)*) :")


def sentence_of(text):
    """The first sentence of a comment, without its full stop."""
    found = re.match(r"(.+?)\.(?= [A-Z`]|$)", text)
    return found[1] if found else text.rstrip(".")


def cell(text):
    return text.replace("|", "\\|")


class Sources:
    def __init__(self, top):
        self.top = pathlib.Path(top)
        lines = (self.top / "crates.txt").read_text().splitlines()
        self.groups, self.crates = [], []
        for line in lines[1:]:
            if line.startswith("# "):
                self.groups.append((line[2:], []))
            elif re.match(rf"{WORD}:", line):
                name = line.split(":")[0]
                self.crates.append(name)
                self.groups[-1][1].append(name)

    def files(self, crate, part, ending):
        return sorted((self.top / "crates" / crate / part).glob(f"**/*.{ending}"))

    # ---- definitions

    @functools.cache
    def modules(self, crate):
        """{module: Module} of the specs/ of a crate."""
        base = self.top / "crates" / crate / "specs"
        found = {}
        for file in self.files(crate, "specs", "antt"):
            if file.stem != "Lib":
                found[".".join(file.relative_to(base).with_suffix("").parts)] = Module(file.read_text())
        return found

    def definition(self, place):
        crate, module, name = place
        of = self.modules(crate).get(module) if crate in self.crates else None
        return of.definitions.get(name) if of else None

    def cited_by(self, text, names, crate, module=None):
        """The places (crate, module, name) of the definitions that a text cites, in their order."""
        own = self.modules(crate)[module].definitions if module else {}
        found = []
        for word in TOKEN.findall(text):
            place = (crate, module, word) if word in own else names.get(word)
            if place and place not in found and self.definition(place):
                found.append(place)
        return found

    @functools.cache
    def reached(self):
        """All definitions that a clause of a public function cites, or such a definition, or that a crate without functions has."""
        waiting = [place for crate in self.crates for call in self.calls(crate) for place in call.cites]
        for crate in self.crates:
            if not self.calls(crate):
                modules = self.modules(crate).items()
                waiting += [(crate, name, d.name) for name, module in modules for d in module.definitions.values() if d.comment is not None]
        found = set()
        while waiting:
            place = waiting.pop()
            if place not in found:
                found.add(place)
                crate, module, _ = place
                of = self.modules(crate)[module]
                waiting += self.cited_by(self.definition(place).text, of.names, crate, module)
        return found

    # ---- functions

    def exported(self, crate):
        text = (self.top / "crates" / crate / "src/lib.rt")
        text = text.read_text() if text.exists() else ""
        uses = " ".join(re.findall(r"^pub use ([^;]*);", text, re.M))
        declared = re.findall(rf"^pub (?:fn|trait|struct|enum) ({WORD})", text, re.M)
        modules = re.findall(rf"^pub mod ({WORD});", text, re.M)
        inner = [name for module in modules for file in self.files(crate, "src", "rt") if file.stem == module
                 for name in re.findall(rf"^pub (?:fn|trait|struct|enum) ({WORD})", file.read_text(), re.M)]
        return set(re.findall(WORD, uses)) | set(declared) | set(inner)

    @functools.cache
    def calls(self, crate):
        """The public functions with clauses and the laws of a crate, in the order of the names of their files."""
        names = self.exported(crate)
        found = []
        for file in self.files(crate, "src", "rt"):
            text = file.read_text()
            uses = names_in(text)
            for call in calls_in(text):
                if (call.of or call.name) in names:
                    call.cites = []
                    for clause in call.clauses:
                        clause.cites = self.cited_by(clause.text, uses, crate)
                        call.cites += clause.cites
                    found.append(call)
        return found


def names_in(text):
    """{name: (crate, module, name)} of what a file uses of specs/."""
    found = {}
    for crate, part, module, names in USE.findall(text):
        if part == "specs":
            for name in TOKEN.findall(re.sub(r"◌[^,}]*", "", names)):
                found[name] = (crate, module, name)
    return found


class Definition:
    def __init__(self, name, kind, comment):
        self.name, self.kind, self.comment = name, kind, comment
        self.lines, self.fields = [], []

    @property
    def text(self):
        return "\n".join(self.lines)


class Module:
    """A file of specs/: the comment at its beginning, and its definitions."""

    def __init__(self, text):
        self.names = names_in(text)
        lines = text.splitlines()
        top = []
        while lines[len(top):] and lines[len(top)].startswith("--"):
            top.append(lines[len(top)][2:].strip())
        self.comment = " ".join(top)
        self.definitions = {}
        comment, now = [], None
        for line in lines[len(top):]:
            bare = line.strip()
            if bare.startswith("--"):
                comment = [] if bare.startswith("-- ----") else comment + [bare[2:].strip()]
                continue
            head = HEAD.match(line)
            if head and (not head[1] or not (now and now.kind == "record")) and head[3] != "mod":
                now = self.definitions.setdefault(head[3], Definition(head[3], head[2], " ".join(comment)))
            elif line and not line.startswith(" ") and not (now and re.match(rf"{re.escape(now.name)}\b", line)):
                # A private definition; what it cites belongs to those that cite it.
                name = TOKEN.search(re.sub(r"^(?:abbrev|unfoldable|record|data|module)\b", "", line))
                if name and not re.match(r"(?:use|unfolding)\b", line) and "module" not in line.split()[:1]:
                    now = self.definitions.get(name[0]) or Definition(name[0], None, None)
                    self.definitions[name[0]] = now
            elif now and now.kind == "record" and (field := FIELD.match(line)):
                now.fields += [(name, " ".join(comment)) for name in field[1].split()]
            if now and bare:
                now.lines.append(line.split(" -- ")[0])
            comment = []


class Clause:
    def __init__(self, kind, name, text):
        self.kind, self.name, self.text, self.cites = kind, name, text, []


class Call:
    def __init__(self, of, name, comment):
        self.of, self.name, self.comment, self.clauses, self.cites = of, name, comment, [], []

    @property
    def title(self):
        return f"{self.of}::{self.name}" if self.of else self.name


def comment_above(lines, at, mark):
    found = []
    while at > 0:
        bare = lines[at - 1].strip()
        if bare.startswith(mark):
            found.insert(0, bare[len(mark):].strip())
        elif not bare.startswith("#["):
            break
        at -= 1
    text = " ".join(line or "\n" for line in found)
    return text.split("\n")[0].strip()


def clauses_from(lines, at):
    """The clauses of the function whose signature begins at this line."""
    found = []
    while at < len(lines):
        bare = lines[at].strip()
        head = re.match(rf"(ensures|requires) (?:({WORD}) )?\{{", bare)
        if head:
            text = bare
            while text.count("{") > text.count("}") and at + 1 < len(lines):
                at += 1
                text += " " + lines[at].strip()
            found.append(Clause(head[1], head[2], text.split("{", 1)[1]))
            if text.endswith(";"):
                break
        elif bare == "{" or bare.endswith((";", " {", "}")):
            break
        at += 1
    return found


def calls_in(text):
    """The functions of a file that are public, or a trait's, with clauses; and the laws of traits."""
    lines, of, trait = text.splitlines(), None, False
    for at, line in enumerate(lines):
        head = re.match(rf"(pub trait|impl)(?:<.*?>)? ({WORD})", line)
        if head or line == "}":
            trait = bool(head) and head[1] == "pub trait"
            of = head[2] if head and (trait or " for " not in line) else None
            if head and not trait and (model := re.match(rf"impl(?:<.*?>)? Model for ({WORD})", line)):
                of = ("model", model[1])
        law = re.match(rf"    ghost ({WORD})(?::| =) \{{(.*)", line)
        if law and isinstance(of, tuple) and law[1] in ("view", "invariant"):
            call = Call(of[1], law[1], "")
            call.clauses = [Clause("model", law[1], law[2])]
            yield call
        elif law and trait and law[1] != "state":
            call = Call(of, law[1], comment_above(lines, at, "//"))
            call.clauses = [Clause("law", None, law[2])]
            yield call
        name = re.match(rf" *{'' if trait else 'pub '}fn ({WORD})", line)
        if name and not isinstance(of, tuple):
            call = Call(of, name[1], comment_above(lines, at, "///"))
            call.clauses = clauses_from(lines, at)
            if call.clauses:
                yield call


# ---- the tables


def shown(clauses, kind):
    """The names of clauses of a kind, each with the first definition that it cites."""
    parts = []
    for clause in clauses:
        if clause.kind == kind:
            cited = next((name for _, _, name in clause.cites if name not in WRAPPERS and name != clause.name), None)
            both = f"`{clause.name}`" + (f" (`{cited}`)" if cited else "") if clause.name else f"`{cited}`" if cited else ""
            if both and both not in parts:
                parts.append(both)
    return ", ".join(parts)


def proved_rows(sources, crate):
    for call in sources.calls(crate):
        if any(clause.kind == "model" for clause in call.clauses):
            continue
        ensures, requires, law = (shown(call.clauses, kind) for kind in ("ensures", "requires", "law"))
        if law or any(clause.kind == "law" for clause in call.clauses):
            yield f"| law of `{call.of}` | {cell(sentence_of(call.comment))} | `{call.name}`{f' ({law})' if law else ''} |"
        elif any(clause.kind == "ensures" for clause in call.clauses):
            needs = f"; requires {requires}" if requires else ""
            yield f"| `{call.title}` | {cell(sentence_of(call.comment))} | {ensures}{needs} |"


def proved(sources, notes):
    """The sections of docs/PROVED.md by groups and crates, each with its note if there is one."""
    out, used = [], set()
    for group, crates in sources.groups:
        parts = []
        for crate in crates:
            rows = [] if crate.endswith("_tests") else list(proved_rows(sources, crate))
            if rows or crate in notes:
                parts += [f"### `{crate}`", ""]
                if crate in notes:
                    parts += [notes[crate], ""]
                    used.add(crate)
                if rows:
                    parts += ["| Function | Says | Clauses |", "|---|---|---|", *rows, ""]
        if parts:
            out += [f"## {group}", "", *parts]
    return "\n".join(out), set(notes) - used


def meaning_of(definition):
    text = definition.comment if ". " in definition.comment else definition.comment.rstrip(".")
    if definition.fields:
        names = ", ".join(f"`{name}`" + (f" ({comment.rstrip('.')})" if comment else "") for name, comment in definition.fields)
        text = f"{text}{'' if text.endswith('.') or not text else '.'} Fields: {names}"
    return cell(text.strip())


def names_of(definitions):
    return ", ".join(f"`{definition.name}`" for definition in definitions)


def module_rows(name, module, reached):
    """The rows of a module, and the names of its definitions that no public clause cites."""
    public = [d for d in module.definitions.values() if d.comment is not None]
    cited = [d for d in public if d.name in reached]
    explained = [d for d in cited if d.comment or d.fields]
    rows = [f"| **`{name}`** | {'*' + cell(module.comment.rstrip('.')) + '*' if module.comment else ''} |"] if cited else []
    rows += [f"| `{d.name}` | {meaning_of(d)} |" for d in explained]
    if others := [d for d in cited if d not in explained]:
        rows.append(f"| without a comment | {names_of(others)} |")
    left = [d for d in public if d not in cited]
    return rows, [f"{name}: {names_of(left)}"] if left else []


def definitions(sources):
    """The sections of docs/DEFINITIONS.md by groups and crates."""
    out = []
    for group, crates in sources.groups:
        parts = []
        for crate in crates:
            rows, private = [], []
            for name, module in sources.modules(crate).items():
                more, left = module_rows(name, module, {n for c, m, n in sources.reached() if (c, m) == (crate, name)})
                rows += more
                private += left
            if private:
                rows.append(f"| *private* | {'; '.join(private)} |")
            if rows:
                parts += [f"### `{crate}.specs`", "", "| Definition | Meaning |", "|---|---|", *rows, ""]
        if parts:
            out += [f"## {group}", "", *parts]
    return "\n".join(out)


def notes_in(text):
    """{crate: note} of the notes on crates."""
    return {crate: note.strip() for crate, note in re.findall(rf"^### `({WORD})`\n(.*?)(?=^### |\Z)", text, re.M | re.S)}


def pages(top):
    """The texts of both documents, and the crates of notes that no section has."""
    sources, parts = Sources(top), pathlib.Path(top) / "docs/parts"
    head, _, rest = (parts / "PROVED.md").read_text().partition(NOTES)
    notes, _, tail = rest.partition(TAIL)
    tables, unused = proved(sources, notes_in(notes))
    said = "<!-- Written by `scripts/contracts --write` from the sources and docs/parts/{}.md: change these. -->\n"
    texts = {
        "PROVED": said.format("PROVED") + head.rstrip() + "\n\n" + tables.rstrip() + "\n\n" + tail.strip() + "\n",
        "DEFINITIONS": said.format("DEFINITIONS") + (parts / "DEFINITIONS.md").read_text().rstrip() + "\n\n" + definitions(sources).rstrip() + "\n",
    }
    return texts, unused
