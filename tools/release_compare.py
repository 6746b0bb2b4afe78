"""Two files or folders byte for byte: what differs, and which of it may."""

import release_elf
from release_archive import NoRelease, Packed, unzipped

# What may differ, and why that is harmless. Nothing else passes.
ZIPPED = "the archives differ as they are compressed, which is up to the version of zlib; what they hold is the same"
MOST_SHOWN = 20


def place_of(data, at):
    """Where a byte of a file lies: its number, and its section in a program."""
    section = release_elf.section_at(data, at) if release_elf.is_elf(data) else ""
    return f"byte {at}" + (f", in {section}" if section else "")


def difference(one, other):
    """How two files differ; empty if they do not."""
    if one == other:
        return ""
    places = [at for at, pair in enumerate(zip(one, other)) if pair[0] != pair[1]]
    first = places[0] if places else min(len(one), len(other))
    longer = max(one, other, key=len)
    sizes = f"{len(one)} and {len(other)} bytes, " if len(one) != len(other) else ""
    return f"{sizes}{len(places)} bytes differ, the first is {place_of(longer, first)}"


def differences(ones, others):
    """A line for each file of two folders that is not the same in both."""
    for name in sorted({*ones, *others}):
        if name not in ones or name not in others:
            yield f"{name}: only in the {'first' if name in ones else 'second'}"
        elif ones[name].data != others[name].data:
            yield f"{name}: {difference(ones[name].data, others[name].data)}"
        elif ones[name].mode != others[name].mode:
            yield f"{name}: its mode is {ones[name].mode:o} and {others[name].mode:o}"


def is_same_tar(one, other):
    """Whether two files are archives that hold the same bytes."""
    try:
        return unzipped(one) == unzipped(other)
    except NoRelease:
        return False


def files_at(path):
    """The files of a folder by their names in it, or a single file."""
    if not path.is_dir():
        return {"the file": Packed(path.read_bytes())}
    found = {it.relative_to(path).as_posix(): it for it in path.rglob("*") if it.is_file()}
    return {name: Packed(it.read_bytes(), it.stat().st_mode & 0o777) for name, it in found.items()}


def compared(one, other):
    """What differs in two files or folders, and what differs and may."""
    ones, others = files_at(one), files_at(other)
    common = [it for it in ones if it in others and ones[it].data != others[it].data]
    zipped = [it for it in common if is_same_tar(ones[it].data, others[it].data)]
    others |= {name: Packed(ones[name].data, others[name].mode) for name in zipped}
    return [*differences(ones, others)], [f"{name}: {ZIPPED}" for name in zipped]


def show(lines):
    """Prints the first lines, and how many more there are."""
    print(*lines[:MOST_SHOWN], sep="\n")
    if len(lines) > MOST_SHOWN:
        print(f"and {len(lines) - MOST_SHOWN} more")
