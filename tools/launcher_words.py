"""Words for the command line, many of them near the edges of the table of commands."""

import itertools

# The rows of the table. W is a number of workers, S one of marks, N one of a scene.
ROWS = (
    ("plain",),
    ("plain", "full"),
    ("plan", "W"),
    ("plan", "W", "full"),
    ("smooth", "W"),
    ("anytime", "W", "S"),
    ("watch", "W"),
    ("watch", "W", "S"),
    ("batch", "W", "S"),
    ("twin", "W"),
    ("check",),
    ("show",),
    ("convert",),
    ("gen", "N"),
    ("trial", "N"),
)
COMMANDS = tuple(dict.fromkeys(row[0] for row in ROWS))
EDGES = {"W": ("0", "1", "64", "65"), "S": ("0", "1", "262143", "262144"), "N": ("0", "9999", "10000")}
GOOD = {"W": ("1", "2", "9", "10", "39", "59", "60", "64"), "S": ("1", "7", "262143"), "N": ("0", "9999", "10")}
NUMBERS = (
    *"0 1 63 64 65 99 100 9999 10000 262143 262144 300000 999999 1000000 4294967297 18446744073709551617".split(),
    *"00 01 064 007 +1 -1 -0 --1 1.0 1e1 0x1 1_0 1,0".split(),
    *("1 ", " 1", "1\n", "\n1", "1\t", "9" * 40, "1" + "0" * 100_000),
    # Digits that are none here, and a space that is none.
    *("\u0663", "\uff11", "\u00b2", "1\u00a0"),
)
ODD = (
    *"* ? [a-z]* plan* ~ $HOME $(id) `id` ${1} \\ \\n %s ' \" ( ) ; | & < # ! = / . ..".split(),
    *"- -- --- -n -e -f -a -o a=b plan=4".split(),
    *"PLAN Plan plans pla FULL Full fulll ful run next report scene W S N".split(),
    *("", " ", "\n", "\t", "plan ", " plan", "plan\n", "plan\n4", "plan 4", "plain full", "x" * 100_000),
    *("\u00e9", "plan\u0301"),
    # No UTF-8. Some shells have marks of their own among the bytes from 0x81 on.
    *(b"\xff", b"\x80", b"\x81", b"\x84", b"\x88", b"\xc3", b"\xed\xa0\x80"),
    *(b"plan\xff", b"\xffplan", b"1\xff", b"full\x81"),
)


def as_bytes(words):
    return tuple(word if isinstance(word, bytes) else word.encode() for word in words)


def edge_words():
    """Each row with each number at the edge of its range, and with a word more and a word less."""
    for row in ROWS:
        for words in itertools.product(*(EDGES.get(word, (word,)) for word in row)):
            yield as_bytes(words)
            yield as_bytes([*words, "full"])
        good = [GOOD.get(word, (word,))[0] for word in row]
        yield as_bytes(good[:-1])
        yield as_bytes([*good, ""])


def byte_words():
    """Words with each byte that there is before a number, after it, and after a command."""
    for number in range(1, 256):
        byte = bytes([number])
        yield (b"plan", byte + b"4")
        yield (b"plan", b"4" + byte)
        yield (b"plan" + byte, b"4")


def any_word(rng):
    return rng.choice(rng.choice((NUMBERS, NUMBERS, ODD, COMMANDS, ("full",))))


def changed(rng, words):
    """The words with one of them changed, added, taken away or moved."""
    words, place = list(words), rng.randrange(len(words) + 1)
    kind = rng.randrange(5)
    if kind == 0:
        words.insert(place, any_word(rng))
    elif not words[place:]:
        words.append(any_word(rng))
    elif kind == 1:
        words[place] = any_word(rng)
    elif kind == 2:
        del words[place]
    elif kind == 3:
        words.insert(rng.randrange(len(words)), words.pop(place))
    else:
        words[place] = as_bytes([words[place]])[0].swapcase()
    return words


def drawn_words(rng):
    """None to five words: those of a row, perhaps changed, or any."""
    if rng.randrange(4) == 0:
        return as_bytes(any_word(rng) for _ in range(rng.randrange(6)))
    words = [rng.choice(GOOD.get(word, (word,))) for word in rng.choice(ROWS)]
    for _ in range(rng.randrange(4)):
        words = changed(rng, words)
    return as_bytes(words[:5])
