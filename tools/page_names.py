"""Which names a page cites, and which of them the sources do not have.

A name is what stands between backticks. It is held against the sources by its form and by what is said around it: a file
exists, a clause is one of the function that is named with it, a function is in the crate or the file that stands behind it,
a section is on the page that is named before it. Blocks of code are passed over.
"""

import re
from dataclasses import dataclass

from code_names import NAME

SPAN = re.compile(r"`([^`]+)`")
QUALIFIED = re.compile(rf"({NAME}(?:(?:::|\.){NAME})+)(?:\(.*\))?")
PLAIN = re.compile(rf"({NAME})(?:\(.*\))?")
MEMBER = re.compile(rf"\.({NAME})")
FILE = re.compile(r"[\w*./-]*\.(?:rt|antt|md|py|c|so|scene|svg|edit|sh|txt)")
BUILT = {"libkimorefo.so"}
EXAMPLE = re.compile(r"[a-z-]+\.(?:anytime|batch|check|report|smooth|twin|verdict)")
FOLDER = re.compile(r"[\w*.-]+(?:/[\w*.-]*)+")
CODE_LIKE = re.compile(r"\b(?:[a-z]\w*_\w+|[A-Z][a-z]+[A-Z]\w*|\w+::\w+)\b")
HASH = re.compile(r"[0-9a-f]{16}")
BEGINS = re.compile(r" *(?:[-|#]|\d+\. )")
JOINED = re.compile(r",?(?: (?:and|or|with|to))? ?")
SECTION = re.compile(r'(?:\]\([\w.]+\))?,? (?:says )?(?:under )?"([^"]+)"')
OWNER_COLUMNS = {"call", "calls", "function"}
CLAUSE_COLUMNS = {"clause", "clauses"}


@dataclass
class Piece:
    """A name with the words before and after it, up to the next names."""

    name: str
    before: str
    after: str


def prose_of(text):
    """The page in units (paragraphs, items, rows), each with the number of its line; blocks of code are left out."""
    units, fenced, joins = [], False, False
    for number, line in enumerate(text.split("\n"), 1):
        if line.startswith("```"):
            fenced, joins = not fenced, False
        elif fenced or not line.strip():
            joins = False
        elif joins and not BEGINS.match(line):
            units[-1][1] += f" {line.strip()}"
        elif joins or not line.startswith("    "):
            units.append([number, line])
            joins = not line.startswith(("|", "#"))
    return units


def pieces_of(unit):
    parts = SPAN.split(unit)
    return [Piece(parts[k], parts[k - 1], parts[k + 1]) for k in range(1, len(parts), 2)]


class Page:
    """A page that is held against the sources. What it cites and is gone comes out as complaints."""

    def __init__(self, code, path, text, headings):
        self.code, self.path, self.headings = code, path, headings
        self.units = prose_of(text)
        self.complaints = []
        self.columns = None
        self.owners = []
        self.page = ""

    def check(self, marked=""):
        """The complaints, or those about units with this mark alone."""
        for number, unit in self.units:
            self.number = number
            if unit.startswith("|"):
                self.check_row(unit, marked)
            else:
                self.columns = None
                if marked in unit:
                    self.check_unit(unit)
        return self.complaints

    def complain(self, what):
        self.complaints.append(f"{self.path}:{self.number}: {what}")

    def check_unit(self, unit):
        pieces = pieces_of(unit)
        for k, piece in enumerate(pieces):
            self.check_name(pieces, k)
            self.check_section(piece)
            self.check_relation(pieces, k)
        for title in re.findall(r'\bthere, "([^"]+)"', unit):
            self.hold_section(title)
        for link in re.findall(r"\]\(([^)#:]+)(?:#[^)]*)?\)", unit):
            folder = self.path.rpartition("/")[0]
            self.check_file(f"{folder}/{link}" if folder and not link.startswith("../") else link.removeprefix("../"))

    # ---- names by their form

    def check_name(self, pieces, k):
        name = pieces[k].name
        if "NAME" in name and "/" not in name or HASH.fullmatch(name):
            return
        if FILE.fullmatch(name) or FOLDER.fullmatch(name) or EXAMPLE.fullmatch(name) and f"examples/{name}" in self.code.files:
            self.check_file(name)
        elif MEMBER.fullmatch(name):
            owner = self.last_owner(pieces, k)
            if not (owner and self.has_member(owner, name[1:])):
                self.complain(f"`{owner}` has no `{name[1:]}`")
        elif QUALIFIED.fullmatch(name):
            self.check_qualified(QUALIFIED.fullmatch(name)[1])
        elif PLAIN.fullmatch(name):
            self.check_plain(PLAIN.fullmatch(name)[1])
        else:
            for token in CODE_LIKE.findall(name):
                self.check_qualified(token) if "::" in token else self.check_plain(token)

    def check_plain(self, name):
        if not (len(name) == 1 or name.isupper() and len(name) < 8 or self.code.is_known(name)):
            self.complain(f"`{name}` is not in the sources")

    def check_qualified(self, name):
        parts = re.split(r"::|\.", name)
        if parts[0] in ("Rattle", "std"):
            return
        for owner, member in zip(parts, parts[1:]):
            if not self.has_member(owner, member):
                self.complain(f"`{owner}` has no `{member}`")

    def has_member(self, owner, member):
        if owner in self.code.used and owner not in self.code.members and owner not in self.code.functions:
            return member in self.code.used
        return member in self.code.members.get(owner, ()) or member in self.facets_of(owner)

    def facets_of(self, name):
        """The clauses of the functions of a name, and the fields of what these and definitions of that name cite."""
        facets = set(self.code.members.get(name, set()))
        for function in self.code.functions_of(name):
            for clause in function.clauses:
                facets.add(clause.name)
                for cited in re.findall(NAME, clause.text):
                    if cited in self.code.definitions:
                        facets |= self.code.members.get(cited, set())
        return facets

    def last_owner(self, pieces, k):
        for piece in reversed(pieces[:k]):
            qualified = QUALIFIED.fullmatch(piece.name)
            if qualified:
                return re.split(r"::|\.", qualified[1])[-2]
            if PLAIN.fullmatch(piece.name) and piece.name[0].isupper():
                return piece.name
        return None

    def check_file(self, name):
        wanted = re.escape(re.sub(r"^\.+/", "", name).rstrip("/")).replace(r"\*", r"[\w-]*")
        wanted = re.sub(r"(?<![a-z_])(?:NAME|BUG|FILE|CRATE)(?![a-z])", r"[\\w-]+", wanted)
        tail = r"(/.*|\.\w+)?" if "." not in name.rsplit("/", 1)[-1] else ""
        if "out" in name.split("/") or name in BUILT:
            return
        if not any(re.search(rf"(^|/){wanted}{tail}$", path) for path in self.code.files):
            self.complain(f"no file `{name}`")

    # ---- names by what stands around them

    def check_section(self, piece):
        section = SECTION.match(piece.after)
        if piece.name.endswith(".md"):
            self.page = piece.name.rsplit("/", 1)[-1]
            if section:
                self.hold_section(section[1])

    def hold_section(self, title):
        """Whether the page that was named last has a section."""
        if self.page in self.headings and title not in self.headings[self.page]:
            self.complain(f'`{self.page}` has no section "{title}"')

    def check_relation(self, pieces, k):
        """What stands before a name in one list with it, if the name is where that list is to be found."""
        piece = pieces[k]
        words = re.search(r"(?: of| in|,? ?\()? ?$", piece.before)[0].strip()
        group = self.group_before(pieces, k)
        target = piece.name
        law = re.search(r"\blaws? $", piece.before)
        if law and PLAIN.fullmatch(target) and not self.is_law(target):
            self.complain(f"`{target}` is no law")
        if k and re.search(r",? clauses? $", piece.before) and PLAIN.fullmatch(target):
            self.check_clause_list(pieces, k)
        if not group:
            return
        if words in ("of", "(", ",(", "in") and target in self.code.crates:
            self.hold(group, lambda name: self.code.is_in_crate(name, target), target)
        elif FILE.fullmatch(target) and target.endswith((".rt", ".antt")) and (words in ("(", ", (", "of", "in") or self.closes_list(pieces, k)):
            files = self.files_from(pieces, k)
            self.hold(group, lambda name: any(self.code.is_in_file(name, file) for file in files), ", ".join(files))
        elif words == "of" and self.names_clauses(pieces, k, len(group)):
            self.hold(group, lambda name: name in self.facets_of(target.split("::")[-1]), target)

    def check_clause_list(self, pieces, k):
        """Names of clauses that stand after the function, or after the law."""
        last = k
        while last + 1 < len(pieces) and JOINED.fullmatch(pieces[last + 1].before):
            last += 1
        named = pieces[k - 2 if k > 1 and pieces[k - 1].name in self.code.crates else k - 1].name
        owner = QUALIFIED.fullmatch(named) or PLAIN.fullmatch(named)
        if owner and not pieces[last].after.startswith(" of "):
            title = re.split(r"::|\.", owner[1])[-1]
            self.hold([piece.name for piece in pieces[k : last + 1]], lambda name: name in self.facets_of(title), title)

    def is_law(self, name):
        return any("law" in function.file for function in self.code.functions.get(name, [])) or "-" in name

    def names_clauses(self, pieces, k, count):
        first = pieces[k - count]
        return re.search(r"\b(?:clauses?|fields?) $", first.before) is not None

    def closes_list(self, pieces, k):
        """Whether a file ends a list of names in parentheses."""
        if not re.match(r"[);]", pieces[k].after) or not re.fullmatch(r", ", pieces[k].before):
            return False
        for piece in reversed(pieces[: k + 1]):
            if not JOINED.fullmatch(piece.before):
                return piece.before.endswith(("(", "; "))
        return False

    def files_from(self, pieces, k):
        """A file, with those that stand in one list after it."""
        files = [pieces[k].name]
        for piece in pieces[k + 1 :]:
            if not (JOINED.fullmatch(piece.before) and FILE.fullmatch(piece.name)):
                break
            files.append(piece.name)
        return files

    def group_before(self, pieces, k):
        """The names that stand in one list right before a name."""
        group = []
        between = pieces[k].before
        if not re.fullmatch(r"(?: of|,? ?\(| in|, ) ?", between):
            return group
        for at in range(k - 1, -1, -1):
            if pieces[at].name in self.code.crates:
                break
            group.insert(0, pieces[at].name)
            if at == 0 or not JOINED.fullmatch(pieces[at].before):
                break
        return group

    def hold(self, group, holds, target):
        for name in group:
            plain = QUALIFIED.fullmatch(name) or PLAIN.fullmatch(name)
            if not plain or FILE.fullmatch(name):
                continue
            last = re.split(r"::|\.", plain[1])[-1]
            first = re.split(r"::|\.", plain[1])[0]
            if not (holds(last) or "." in plain[1] and holds(first)):
                self.complain(f"`{name}` is not of `{target}`")

    # ---- rows of a table

    def check_row(self, row, marked):
        cells = [cell.strip() for cell in row.strip().strip("|").split("|")]
        if self.columns is None:
            self.columns = [re.sub(r"[^a-z ]", "", cell.lower()) for cell in cells]
            self.owners = []
        for cell, column in zip(cells, self.columns):
            if column in OWNER_COLUMNS and cell:
                self.owners = [re.split(r"::|\.", name)[-1] for name in re.findall(rf"`({NAME}(?:::{NAME})*)`", cell)]
            if marked in cell:
                self.check_unit(cell)
                if column in CLAUSE_COLUMNS and self.owners:
                    self.check_clauses(cell)

    def check_clauses(self, cell):
        names = [piece.name for piece in pieces_of(re.sub(r"\([^()]*\)", "", cell))]
        owners = set(self.owners) | {re.split(r"::|\.", name)[-1] for name in names if name.split("::")[-1] in self.code.functions}
        known = set().union(*(self.facets_of(owner) for owner in owners))
        for name in names:
            if re.fullmatch(r"[a-z]\w*", name) and name not in known and name not in self.code.functions:
                self.complain(f"`{name}` is no clause of {', '.join(self.owners)}")


def headings_of(texts):
    return {
        path.rsplit("/", 1)[-1]: set(re.findall(r"^#+ (.*)$", text, re.M)) | {row.strip("* ") for row in re.findall(r"\*\*(.*?)\*\*", text)}
        for path, text in texts.items()
    }
