#!/usr/bin/env python3
"""Looks whether each place that names the logic of the toolchain names the one that `rt version` names.

Usage: logic.py. It prints a line for each place, and ends with 1 if one differs or is not there. It needs `rt`.
"""

import re
import subprocess
import sys
from pathlib import Path

TOP = Path(__file__).resolve().parent.parent
PLACES = [
    ("README.md", r"\(`rt version`\) is `(\w+)`"),
    ("crates/plan_c/src/exports.rt", r'LOGIC: &str = "(\w+)";'),
    ("crates/plan_c/src/exports.rt", r'HandsOut \(codes "(\w+)"\)'),
]


def named(file, pattern):
    """What a file of the checkout names; None if it names nothing so."""
    match = re.search(pattern, (TOP / file).read_text(encoding="utf-8"))
    return match and match[1]


said = subprocess.run(["rt", "version"], capture_output=True, text=True, check=True).stdout
logic = re.search(r"logic (\w+)", said)[1]
found = [(file, named(file, pattern)) for file, pattern in PLACES]
for file, word in found:
    print(f"{'ok' if word == logic else 'WRONG'}: {file}: {word}")
sys.exit(any(word != logic for _, word in found))
