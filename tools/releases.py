#!/usr/bin/env python3
"""Tries how releases are made, verified and compared, in small checkouts; nothing is proved.

Usage: releases.py PROGRAM. The toolchain has stand-ins: the one for `rt ci` makes each program by copying PROGRAM, a
built one. Two checkouts make the same bytes; whatever no release may be made of is refused; what is not what a checkout
makes is told apart. It also installs the wheel, and looks at the man page and the completions of packaging/.

It prints a line for each case, and ends with 1 if one was wrong. It needs git, pip and tar, and has the man page
formatted only if there is `man`.
"""

import subprocess
import sys
import tempfile
from concurrent.futures import ProcessPoolExecutor
from itertools import repeat

from launcher_tree import Wrong
from release_cases import CASES
from release_tree import Tree
from usage import words_or_usage


def fault_of(program, name):
    """What is wrong with a case, tried in a checkout of its own."""
    with tempfile.TemporaryDirectory() as folder:
        try:
            CASES[name](Tree(folder, program))
        except (Wrong, subprocess.SubprocessError, OSError) as wrong:
            return f"{wrong}"
    return ""


def main(program):
    with ProcessPoolExecutor() as pool:
        faults = list(pool.map(fault_of, repeat(program), CASES))
    for name, fault in zip(CASES, faults):
        print(f"{name}: wrong, not so: {fault}" if fault else f"{name}: right")
    wrong = sum(map(bool, faults))
    print(f"{wrong} of {len(CASES)} cases wrong")
    return 1 if wrong else 0


if __name__ == "__main__":
    sys.exit(main(*words_or_usage(__doc__)))
