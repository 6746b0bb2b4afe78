"""Lists and numbers of things in sentences."""


def listed(items, last="and"):
    """Some items as a sentence lists them."""
    *some, end = map(str, items)
    return f"{', '.join(some)} {last} {end}" if some else end


def counted(count, what):
    """A number of things."""
    return f"{count} {what}" + ("" if count == 1 else "s")
