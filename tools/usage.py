"""The words of a script's command line, or its usage if there are none."""

import sys


def words_or_usage(usage):
    """The words that a script was called with. Without any it prints its usage, and ends with 2."""
    if len(sys.argv) == 1:
        print(usage.strip(), file=sys.stderr)
        sys.exit(2)
    return sys.argv[1:]
