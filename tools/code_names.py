"""What the sources define: functions with their clauses, definitions with their fields, files, and the words of the program.

It reads whatever crates there are in crates/, so it needs no change when one is split. Code is read line by line, by its
form; nothing is resolved.
"""

import os
import re
from collections import defaultdict
from dataclasses import dataclass, field

TOP = os.path.dirname(os.path.dirname(os.path.abspath(__file__)))
FOLDERS = (".ci", "bindings", "crates", "docs", "examples", "packaging", "tools")
SKIPPED = {"out", "__pycache__"}
NAME = r"[^\W\d][\w'-]*"

RUST = "static match bool char str u8 u16 u32 u64 u128 usize i32 i64 i128 assert assert_eq prove".split()

ITEM = re.compile(r"(pub(?:\(\w+\))? )?(?:const |unsafe |extern \S+ )*(fn|struct|enum|trait|type|static|const|mod) (\w+)")
IMPL = re.compile(r"impl\b(?:<.*?>)? ?(?:.*? for )?&?(?:mut )?(\w+)")
CLAUSE = re.compile(r"(ensures|requires)(?: (\w+))? \{(.*)")
MEMBER = re.compile(r"(?:pub(?:\(\w+\))? )?(?:ghost )?(\w+)\b")
HEAD = re.compile(rf"(?:(?:abbrev|unfoldable|pub) )*(?:(record|data) ({NAME})|({NAME}) :)")
LITERAL = re.compile(r'"((?:[^"\\]|\\.)*)"')


@dataclass
class Clause:
    kind: str
    name: str
    text: str
    comment: str


@dataclass
class Function:
    crate: str
    file: str
    line: int
    owner: str
    name: str
    public: bool
    comment: str
    clauses: list = field(default_factory=list)

    def title(self):
        return f"{self.owner}::{self.name}" if self.owner else self.name


@dataclass
class Definition:
    crate: str
    file: str
    line: int
    name: str
    comment: str
    fields: list = field(default_factory=list)


class Code:
    """All that the sources under a folder define, by name."""

    def __init__(self, top=TOP):
        self.top = top
        self.files = sorted(every_file(top))
        self.crates = {path.split("/")[1] for path in self.files if path.startswith("crates/") and path.count("/") > 1}
        self.functions = defaultdict(list)
        self.methods = defaultdict(list)
        self.definitions = defaultdict(list)
        self.members = defaultdict(set)
        self.places = defaultdict(set)
        self.passed_on = defaultdict(set)
        self.used = set(RUST)
        self.words = set()
        for path in self.files:
            self.read(path)

    def read(self, path):
        parts = path.split("/")
        for name in (part.split(".")[0] for part in parts):
            self.places[name].add(path)
        lines = read_lines(f"{self.top}/{path}")
        if path.endswith(".rt"):
            RustFile(self, path, lines).read()
        elif path.endswith(".antt"):
            DefinitionFile(self, path, lines).read()
        elif path.endswith(".py"):
            self.read_python(path, "\n".join(lines))
        elif path == "prrt":
            self.words.update(re.findall(r"[\w-]+", "\n".join(lines)))
        elif parts[0] == "examples" or path in ("crates.txt", "HANDLES") or parts[-1] in ("stdin", "stdout"):
            self.words.update(re.findall(r"[\w-]+", "\n".join(lines)))

    def read_python(self, path, text):
        """Names that a Python file defines or imports, texts in capitals that name a setting, and the methods of its classes."""
        for name in re.findall(r"^\s*(?:def |class )?(\w+)(?:\(| = |:$)", text, re.M):
            self.places[name].add(path)
        self.used.update(name for names in re.findall(r"^from \w+ import (.*)", text, re.M) for name in names.split(", "))
        self.words.update(re.findall(r'"([A-Z][A-Z_]+)"', text))
        for owner, body in re.findall(r"^class (\w+)[^\n]*:\n((?:(?: .*)?\n)*)", text, re.M):
            self.members[owner].update(re.findall(r"^    def (\w+)", body, re.M))

    def is_known(self, name):
        return name in self.places or name in self.used or name in self.words

    def is_in_crate(self, name, crate):
        """Whether a crate defines a name, or passes it on."""
        home = f"crates/{crate}"
        folders = (f"{home}/src/", f"{home}/specs/", f"{home}/proofs/{name}.", *([f"{home}/proofs/"] if "-" in name else []))
        return name in self.passed_on[crate] or any(path.startswith(folders) for path in self.places.get(name, ()))

    def is_in_file(self, name, file):
        return any(path == file or path.endswith(f"/{file}") for path in self.places.get(name, ()))

    def functions_of(self, name):
        """The functions of a name, or of a type or a trait of that name."""
        return self.functions.get(name, []) + self.methods.get(name, [])


def every_file(top):
    """The files of the repository: those at its top, and those in its folders."""
    yield from (name for name in os.listdir(top) if os.path.isfile(f"{top}/{name}"))
    for part in FOLDERS:
        for folder, folders, names in os.walk(f"{top}/{part}"):
            folders[:] = [name for name in folders if name not in SKIPPED]
            for name in names:
                yield os.path.relpath(f"{folder}/{name}", top)


def read_lines(path):
    try:
        with open(path, encoding="utf-8") as text:
            return text.read().split("\n")
    except UnicodeDecodeError:
        return []


def said(comments):
    return " ".join(line.lstrip("/!- ").strip() for line in comments if not line.startswith("-- ----")).strip()


def depth_of(line):
    return len(line) - len(line.lstrip(" "))


class RustFile:
    """Reads a file of code: items with their owners, and the clauses at the heads of functions."""

    def __init__(self, code, path, lines):
        self.code, self.path, self.lines = code, path, lines
        self.crate = path.split("/")[1] if path.startswith("crates/") else ""
        self.owners = []
        self.comments = []
        self.function = None
        self.use = None

    def read(self):
        for number, line in enumerate(self.lines, 1):
            text = line.strip()
            if text.startswith("//"):
                self.comments.append(text)
                continue
            if text and not text.startswith(("#[", "'")):
                self.read_code(number, line, text)
                self.comments = []

    def read_code(self, number, line, text):
        depth = depth_of(line)
        while self.owners and depth <= self.owners[-1][0] and not text.startswith(("requires", "ensures", "where", "{", ")")):
            self.owners.pop()
        self.note_use(text)
        if self.is_open_clause():
            self.function.clauses[-1].text += f" {text}"
            return
        clause = CLAUSE.match(text)
        if clause and self.function:
            self.function.clauses.append(Clause(clause[1], clause[2] or "", clause[3], said(self.comments)))
            self.code.places[clause[2] or ""].add(self.path)
            return
        for literal in LITERAL.findall(text):
            self.code.words.update(re.findall(r"[\w-]+", literal))
        item = ITEM.match(text)
        if item:
            self.read_item(number, depth, item, text)
        elif text.startswith("impl"):
            self.owners.append((depth, IMPL.match(text)[1], "impl"))
        elif self.owners and self.owners[-1][2] in ("struct", "enum", "trait", "impl"):
            member = MEMBER.match(text)
            if member and depth == self.owners[-1][0] + 4:
                self.note(member[1])

    def is_open_clause(self):
        text = self.function.clauses[-1].text if self.function and self.function.clauses else "}"
        return text.count("}") <= text.count("{")

    def read_item(self, number, depth, item, text):
        kind, name = item[2], item[3]
        self.note(name)
        if kind == "fn":
            owner = self.owners[-1][1] if self.owners else ""
            public = bool(item[1] == "pub " or self.owners and " trait " in f" {self.owners[-1][2]} ")
            self.function = Function(self.crate, self.path, number, owner, name, public, said(self.comments))
            self.code.functions[name].append(self.function)
            if owner:
                self.code.methods[owner].append(self.function)
        elif kind in ("struct", "enum", "trait") and not text.endswith(";"):
            self.owners.append((depth, name, kind))

    def note(self, name):
        self.code.places[name].add(self.path)
        stem = os.path.basename(self.path).split(".")[0]
        owners = [self.owners[-1][1]] if self.owners else [stem, self.crate, *self.path.split("/")[3:-1]]
        for owner in owners:
            self.code.members[owner].add(name)

    def note_use(self, text):
        """What comes from other libraries, what a crate passes on, and what is called."""
        use = re.match(r"(pub )?(?:ghost )?use ([\w:.]+)", text) or not text.endswith(";") and self.use
        self.use = use if use and not text.endswith(";") else None
        if use:
            root = use[2].split("::")[0]
            names = re.findall(r"\w+", text)
            if use[1]:
                self.code.passed_on[self.crate].update(names)
            if root not in self.code.crates and root != "crate" and not re.match(r"Rattle\.(?!std)", use[2]):
                self.code.used.update(names)
            return
        self.code.used.update(re.findall(r"(?:\.|::)(\w+)", text))
        self.code.used.update(re.findall(r"\b[A-Z]\w*", text))


class DefinitionFile:
    """Reads a file of definitions or lemmas: each name that stands at the head of a definition, and fields of records."""

    def __init__(self, code, path, lines):
        self.code, self.path, self.lines = code, path, lines
        self.crate = path.split("/")[1]
        self.record = None
        self.comments = []

    def read(self):
        for number, line in enumerate(self.lines, 1):
            text = line.strip()
            if text.startswith("--"):
                self.comments.append(text)
                continue
            if self.record and text and depth_of(line) <= self.record[0] and not text.startswith(("(", "→", ":")):
                self.record = None
            if text.startswith("use Rattle.std."):
                self.code.used.update(re.findall(NAME, text))
            head = HEAD.match(text)
            if head:
                self.read_head(number, line, head)
            if text:
                self.comments = []

    def read_head(self, number, line, head):
        kind, name = head[1], head[2] or head[3]
        self.code.places[name].add(self.path)
        if self.record and depth_of(line) > self.record[0]:
            self.code.members[self.record[1].name].add(name)
            self.record[1].fields.append((name, said(self.comments)))
            return
        definition = Definition(self.crate, self.path, number, name, said(self.comments))
        self.code.definitions[name].append(definition)
        self.code.members[os.path.basename(self.path).split(".")[0]].add(name)
        if kind:
            self.record = (depth_of(line), definition)
