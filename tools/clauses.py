#!/usr/bin/env python3
"""The clauses of public functions, as the sources have them, and whether the pages cite only names that exist.

Usage: clauses.py CRATE.., or clauses.py all, prints a table: crate, function, clause, and the comment beside the clause, or
       else the clause itself.
       clauses.py NAME.. prints a function with its clauses, or a definition with its fields, by its name.
       clauses.py --files CRATE.. prints each file of definitions and of lemmas with its first line.
       clauses.py --pages holds all pages against the code, and ends with 1 if one names what is gone: a file, a crate,
       a function, a clause, a definition or a field, or a section of another page.
       clauses.py --plant spoils each name of each page in turn, and counts which are reported.
"""

import re
import sys

from code_names import NAME, TOP, Code, read_lines
from page_names import SPAN, Page, headings_of, prose_of
from usage import words_or_usage

GONE = "_that_is_gone"


def pages(code):
    return {path: "\n".join(read_lines(f"{TOP}/{path}")) for path in code.files if path.endswith(".md")}


def comment_of(clause):
    """The comment beside a clause, or else the clause itself."""
    return clause.comment or f"`{clause.text.rstrip(' };').strip()}`"


def print_table(code, crates):
    print("| crate | function | clause | comment |\n|---|---|---|---|")
    functions = [f for named in code.functions.values() for f in named if f.crate in crates and f.public and "/src/" in f.file]
    for function in sorted(functions, key=lambda f: (f.crate, f.file, f.line)):
        print(f"| `{function.crate}` | `{function.title()}` | | {first_sentence(function.comment)} |")
        for clause in function.clauses:
            if clause.kind == "ensures":
                print(f"| | | `{clause.name or '-'}` | {comment_of(clause)} |")


def first_sentence(comment):
    return re.split(r"(?<=\.) ", comment)[0]


def print_name(code, name):
    """Prints what has a name, first of all what is public, and tells whether anything has it."""
    named = [f for f in code.functions.get(name.split("::")[-1], []) if "::" not in name or f.title() == name]
    functions = [f for f in named if f.public and "/src/" in f.file] or named
    for function in functions:
        print(f"{function.title()}, {function.file}:{function.line}\n    {function.comment}")
        for clause in function.clauses:
            print(f"  {clause.kind} {clause.name or '-'}: {comment_of(clause)}")
    known = code.definitions.get(name, [])
    definitions = [d for d in known if "/specs/" in d.file] or ([] if functions else known)
    for definition in definitions:
        print(f"{name}, {definition.file}:{definition.line}\n    {definition.comment}")
        for field, comment in definition.fields:
            print(f"  {field}: {comment}")
    return bool(functions or definitions)


def print_files(code, crates):
    for path in code.files:
        parts = path.split("/")
        if path.endswith(".antt") and parts[1] in crates and not path.endswith("Lib.antt"):
            if parts[2] == "specs" or parts[2] == "proofs" and parts[-2][0].isupper() or len(parts) == 4:
                print(f"{path}: {read_lines(f'{TOP}/{path}')[0].lstrip('- ')}")


def check_pages(code, texts):
    headings = headings_of(texts)
    return [line for path, text in texts.items() for line in Page(code, path, text, headings).check()]


def plant(code, texts):
    """Spoils each name, and prints those whose loss no complaint tells."""
    headings, planted, missed = headings_of(texts), 0, []
    for path, text in texts.items():
        units = prose_of(text)
        for at, (number, unit) in enumerate(units):
            for span in SPAN.finditer(unit):
                name = re.search(rf"(?<!\w)({NAME})(\(.*\)|/|\.\w+)?$", span[1])
                if not name or re.search(r"\s|NAME|\bout/", span[1]) or len(name[1]) == 1 or name[1].isupper():
                    continue
                end = span.start(1) + name.end(1)
                page = Page(code, path, "", headings)
                page.units = [*units[:at], (number, f"{unit[:end]}{GONE}{unit[end:]}"), *units[at + 1 :]]
                planted += 1
                if not page.check(GONE):
                    missed.append(f"{path}:{number}: {span[1]}")
    return planted, missed


def main(*words):
    code = Code()
    if words[0] == "--pages":
        complaints = check_pages(code, pages(code))
        print("\n".join([*complaints, f"{len(complaints)} names that are gone"]))
        return 1 if complaints else 0
    if words[0] == "--plant":
        planted, missed = plant(code, pages(code))
        print("\n".join([*missed, f"{planted} names spoiled, {len(missed)} not reported"]))
        return 1 if missed else 0
    if words[0] == "--files":
        print_files(code, words[1:] or code.crates)
    elif words == ("all",) or all(word in code.crates for word in words):
        print_table(code, code.crates if words == ("all",) else words)
    else:
        unknown = [word for word in words if not print_name(code, word)]
        for word in unknown:
            print(f"{word} is no name of the sources", file=sys.stderr)
        return 2 if unknown else 0
    return 0


if __name__ == "__main__":
    sys.exit(main(*words_or_usage(__doc__)))
