"""An archive whose bytes follow from what is packed: sorted, with one date, and without owners."""

import gzip
import hashlib
import io
import struct
import tarfile
import zlib
from dataclasses import dataclass

SUMS = "SHA256SUMS"
PLAIN, PROGRAM = 0o644, 0o755
# More than any release has, so that no archive fills the memory.
MOST_BYTES = 1_000_000_000


class NoRelease(Exception):
    """Why an archive is none, or a release is not made."""


@dataclass(frozen=True)
class Packed:
    """A file of an archive: its bytes, and how it may be used."""

    data: bytes
    mode: int = PLAIN


def sum_of(data):
    return hashlib.sha256(data).hexdigest()


def sums_of(files):
    """The lines that `sha256sum -c` reads, for files by their names."""
    return "".join(f"{sum_of(it.data)}  {name}\n" for name, it in sorted(files.items())).encode()


def with_sums(files):
    """The files, and a file with their sums."""
    return files | {SUMS: Packed(sums_of(files))}


def tar_of(folder, files, seconds):
    """A tar of the files, in a folder, all of one date."""
    made = io.BytesIO()
    with tarfile.open(fileobj=made, mode="w", format=tarfile.USTAR_FORMAT) as tar:
        for name, packed in sorted(files.items()):
            entry = tarfile.TarInfo(f"{folder}/{name}")
            entry.size, entry.mtime, entry.mode = len(packed.data), seconds, packed.mode
            tar.addfile(entry, io.BytesIO(packed.data))
    return made.getvalue()


def zipped(data):
    """A gzip file with these bytes, which tells neither its date nor its name nor who made it."""
    body = zlib.compressobj(9, zlib.DEFLATED, -zlib.MAX_WBITS)
    head = b"\x1f\x8b\x08" + bytes(5) + b"\x02\xff"
    return head + body.compress(data) + body.flush() + struct.pack("<II", zlib.crc32(data), len(data))


def unzipped(data):
    """The bytes in a gzip file."""
    try:
        with gzip.open(io.BytesIO(data)) as file:
            found = file.read(MOST_BYTES + 1)
    except (OSError, EOFError, zlib.error) as fault:
        raise NoRelease(f"this is no whole gzip file: {fault}") from None
    if len(found) > MOST_BYTES:
        raise NoRelease(f"the archive holds more than {MOST_BYTES:,} bytes")
    return found


def is_below(name):
    """Whether a name leads to nothing outside its folder."""
    return not name.startswith("/") and all(part not in ("", ".", "..") for part in name.split("/"))


def entries(tar):
    """The entries of a tar, each a plain file of a name of its own, inside of one folder."""
    found = {}
    try:
        with tarfile.open(fileobj=io.BytesIO(tar)) as it:
            for entry in it:
                if not (entry.isreg() and is_below(entry.name) and "/" in entry.name) or entry.name in found:
                    raise NoRelease(f"the archive has an entry that no release has: {entry.name!r}")
                found[entry.name] = Packed(it.extractfile(entry).read(), entry.mode)
    except tarfile.TarError as fault:
        raise NoRelease(f"this is no whole tar: {fault}") from None
    return found


def unpacked(tar):
    """The one folder of a tar, and its files by their names in it."""
    found = entries(tar)
    folders = {name.partition("/")[0] for name in found}
    if len(folders) != 1:
        raise NoRelease(f"the archive has {len(folders)} folders in place of one")
    return folders.pop(), {name.partition("/")[2]: it for name, it in found.items()}


def damaged(files):
    """The names of files that the sums in the archive do not tell as they are."""
    own = files.get(SUMS, Packed(b"")).data
    rest = {name: it for name, it in files.items() if name != SUMS}
    if own == sums_of(rest):
        return []
    lines = dict(line.partition("  ")[::2][::-1] for line in own.decode(errors="replace").splitlines())
    spoiled = {name for name in {*lines, *rest} if name not in rest or lines.get(name) != sum_of(rest[name].data)}
    return sorted(spoiled - {""}) or [SUMS]
