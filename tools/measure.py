#!/usr/bin/env python3
"""Runs a command, and writes one line to standard error: its status, the seconds of the clock and of the processors, and the most
kilobytes of memory that it had.

Usage: measure.py COMMAND [WORDS..]. A process counts the memory of the one that it was made from too, so this one has little, and
less than some ten megabytes are not told apart.
"""

import os
import sys
import time

from usage import words_or_usage

words = words_or_usage(__doc__)
begun = time.perf_counter()
child = os.posix_spawnp(words[0], words, os.environ)
_, status, usage = os.wait4(child, 0)
seconds = time.perf_counter() - begun
used = usage.ru_utime + usage.ru_stime
sys.stderr.write(f"{os.waitstatus_to_exitcode(status)} {seconds} {used} {usage.ru_maxrss}\n")
