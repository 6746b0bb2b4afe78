"""Several scenes in one text, separated by lines `next`, as `batch` reads them."""

from .scene_text import Fault, read

MOST_SCENES = 64


def parts_of(text):
    """The texts between lines `next`, each with the number of lines before it."""
    lines = text.split(b"\n")
    if not lines[-1]:
        lines.pop()
    parts, first = [], 0
    for number, line in enumerate([*lines, b"next"]):
        if line == b"next":
            parts.append((first, b"".join(own + b"\n" for own in lines[first:number])))
            first = number + 1
    return parts


def read_batch(text):
    """The scenes of a text. If it is refused, the first `Fault` of its parts, by the line in the whole text."""
    parts, scenes = parts_of(text), []
    for before, part in parts[:MOST_SCENES]:
        try:
            scenes.append(read(part))
        except Fault as fault:
            raise Fault(before + fault.line, fault.kind) from None
    if len(parts) > MOST_SCENES:
        raise Fault(parts[MOST_SCENES][0], 8)
    return scenes
