#!/usr/bin/env python3
"""Several scenes at once, from the rules alone (docs/report-format.md, "Of several scenes"): what `batch 1 S` is to write for them.

Usage: batch.py S < SCENES. The text is cut at each line `next`, each part is read by itself, and the better paths of each are those of
anytime.py. It ends with the statuses of the planner.
"""

import sys

from anytime import anytime_answer
from kimorefo.batches import parts_of, read_batch
from kimorefo.scene_text import MOST_TEXT_BYTES, Fault
from usage import words_or_usage

START_BLOCKED = 4


def batch_answer(text, slice_size):
    """What `batch 1 S` is to write for the bytes of several scenes, and its status."""
    if len(text) > MOST_TEXT_BYTES:
        return "text too long\n", 3
    try:
        read_batch(text)
    except Fault as fault:
        return f"{fault}\n", 3
    answers = [anytime_answer(part, slice_size) for _, part in parts_of(text)]
    status = max(status for _, status in answers)
    if status == START_BLOCKED:
        return "start blocked\n", status
    return "".join(f"scene {number}\n{output}" for number, (output, _) in enumerate(answers)), status


if __name__ == "__main__":
    (words,) = words_or_usage(__doc__)
    written, code = batch_answer(sys.stdin.buffer.read(), int(words))
    sys.stdout.write(written)
    sys.exit(code)
