#!/usr/bin/env python3
"""Says in plain sentences what is wrong with a scene, and how to mend it.

Usage: explain.py SCENE, with the name of a file, or - for standard input. It writes the line with which the program
refuses the text or its start, if it does, and then why. Of a scene that can be planned it says what may stand in the
way of a path. A text with a line `next` is explained part by part, as `batch` reads it, and one with a line `report` up
to that line, as `check` does.

It ends with 3 if the text is refused, with 4 if a start is not clear, and else with 0, whatever it has said; with 5 if
the text could not be read, and with 2 if there is not just one word.
"""

import sys
from pathlib import Path

from kimorefo.explaining.answers import answer_for
from usage import words_or_usage

UNREAD = 5


def main(words):
    """Writes what is said of the text that the word names, and gives the exit status."""
    if len(words) != 1:
        print(__doc__.strip(), file=sys.stderr)
        return 2
    try:
        text = sys.stdin.buffer.read() if words == ["-"] else Path(words[0]).read_bytes()
    except OSError as error:
        print(f"{words[0]} could not be read: {error.strerror}", file=sys.stderr)
        return UNREAD
    answer = answer_for(text)
    sys.stdout.reconfigure(errors="backslashreplace")
    sys.stdout.write(answer.text())
    return answer.status


if __name__ == "__main__":
    sys.exit(main(words_or_usage(__doc__)))
