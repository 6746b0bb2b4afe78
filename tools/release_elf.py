"""What an ELF file for x86-64 needs of a system, and which of its sections has a byte."""

import struct
from dataclasses import dataclass

MAGIC = b"\x7fELF\x02\x01"
NEEDED = 1


@dataclass(frozen=True)
class Section:
    """A section: where it lies in the file, and which other one has its names."""

    name: str
    at: int
    size: int
    link: int


def is_elf(data):
    return data.startswith(MAGIC)


def text_at(data, at):
    """The text that begins there, up to its byte 0."""
    return data[at : data.index(b"\0", at)].decode()


def sections(data):
    """All sections, in the order of their numbers."""
    (table,) = struct.unpack_from("<Q", data, 0x28)
    each, count, names = struct.unpack_from("<HHH", data, 0x3A)
    rows = [struct.unpack_from("<IIQQQQI", data, table + number * each) for number in range(count)]
    # A section of type 8 takes no room in the file.
    return [Section(text_at(data, rows[names][4] + it[0]), it[4], it[5] * (it[1] != 8), it[6]) for it in rows]


def section_at(data, at):
    """The name of the section that has the byte there, if one has."""
    return next((it.name for it in sections(data) if it.at <= at < it.at + it.size), "")


def named(data, name):
    """The section of this name, and the one with its names; None if there is none."""
    every = sections(data)
    return next(((it, every[it.link]) for it in every if it.name == name), None)


def libraries(data):
    """The libraries that the file asks for, in their order."""
    found = named(data, ".dynamic")
    if not found:
        return []
    table, names = found
    entries = struct.iter_unpack("<QQ", data[table.at : table.at + table.size])
    return [text_at(data, names.at + value) for tag, value in entries if tag == NEEDED]


def chained(data, at, form, last):
    """The records from there on, each with its place; the last number of a record says how far off the next one is."""
    while True:
        record = struct.unpack_from(form, data, at)
        yield at, record
        if not record[last]:
            return
        at += record[last]


def versions(data):
    """The versions of symbols that the file asks of each library."""
    found = named(data, ".gnu.version_r")
    if not found:
        return {}
    table, names = found
    wanted = {}
    for at, (_, _, file, first, _) in chained(data, table.at, "<HHIII", 4):
        asked = chained(data, at + first, "<IHHII", 4)
        wanted[text_at(data, names.at + file)] = {text_at(data, names.at + it[3]) for _, it in asked}
    return wanted


def interpreter(data):
    """The loader that the file names, if it names one."""
    found = named(data, ".interp")
    return text_at(data, found[0].at) if found else ""


def newest(asked):
    """The highest version `GLIBC_X.Y` among some versions, as numbers."""
    numbers = [it.removeprefix("GLIBC_").split(".") for it in asked if it.startswith("GLIBC_")]
    return max((tuple(map(int, it)) for it in numbers if all(part.isdigit() for part in it)), default=())


def glibc(data):
    """The version of the GNU C library from which on the file runs, as text."""
    return ".".join(map(str, newest(set().union(*versions(data).values()))))
