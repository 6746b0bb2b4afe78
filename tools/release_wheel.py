"""The Python package as a wheel with the program in it, whose bytes follow from what is packed."""

import base64
import hashlib
import io
import re
import time
import zipfile

from release_archive import NoRelease, Packed, PROGRAM

WHEEL = """Wheel-Version: 1.0
Generator: kimorefo
Root-Is-Purelib: false
Tag: {tag}
"""
METADATA = """Metadata-Version: 2.1
Name: {name}
Version: {version}
Summary: {description}
Requires-Python: {requires-python}
"""
FIELDS = ("name", "version", "description", "requires-python")
PACKAGE, IN_PACKAGE = "kimorefo", "kimorefo/planner_main"


def project_of(text):
    """What pyproject.toml says of the project."""
    rows = dict(re.findall(r'(?m)^([a-z-]+) = "([^"\n]*)"$', text.partition("[project]")[2].partition("\n[")[0]))
    lacking = [it for it in FIELDS if it not in rows]
    if lacking:
        raise NoRelease(f"pyproject.toml has no {lacking[0]}")
    return rows


def record_of(files, record):
    """The lines that tell the files of a wheel, each with its sum, and the file itself without."""
    lines = []
    for name, packed in sorted(files.items()):
        told = base64.urlsafe_b64encode(hashlib.sha256(packed.data).digest()).rstrip(b"=").decode()
        lines.append(f"{name},sha256={told},{len(packed.data)}\n")
    return "".join([*lines, f"{record},,\n"]).encode()


def zip_of(files, seconds):
    """A zip of the files, in their order, all of one date. It is not compressed, so that no version of zlib shows."""
    made = io.BytesIO()
    with zipfile.ZipFile(made, "w", zipfile.ZIP_STORED) as out:
        for name, packed in files.items():
            entry = zipfile.ZipInfo(name, time.gmtime(seconds)[:6])
            entry.create_system, entry.external_attr = 3, (0o100000 | packed.mode) << 16
            out.writestr(entry, packed.data)
    return made.getvalue()


def wheel_of(package, project, program, glibc, seconds):
    """The name and the bytes of the wheel: of the package's files, and a program that needs a version of glibc."""
    rows = project_of(project)
    tag = f"py3-none-manylinux_{glibc.replace('.', '_')}_x86_64"
    about = f"{rows['name']}-{rows['version']}.dist-info"
    files = {f"{PACKAGE}/{name}": it for name, it in package.items()} | {IN_PACKAGE: Packed(program, PROGRAM)}
    told = {f"{about}/METADATA": METADATA.format(**rows), f"{about}/WHEEL": WHEEL.format(tag=tag)}
    files = dict(sorted(files.items())) | {name: Packed(text.encode()) for name, text in told.items()}
    record = f"{about}/RECORD"
    files[record] = Packed(record_of(files, record))
    return f"{rows['name']}-{rows['version']}-{tag}.whl", zip_of(files, seconds)
