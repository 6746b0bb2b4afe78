"""How lines and numbers are spelled: which characters are not plain, why a word is no number, and what to write."""

import codecs
import re
from decimal import Decimal

MOST_SHOWN = 100
MOST_DIGITS = 40
# Encodings by their byte order marks, the longer marks first, and as `iconv` names them.
WIDE_MARKS = (
    (codecs.BOM_UTF32_LE, "UTF-32"),
    (codecs.BOM_UTF32_BE, "UTF-32"),
    (codecs.BOM_UTF16_LE, "UTF-16"),
    (codecs.BOM_UTF16_BE, "UTF-16"),
)
# Characters that are none of a number, a key or a gap between two; what to write for them; and what to say of them.
ODD_CHARACTERS = (
    (
        "\r",
        " ",
        "It has a carriage return, as Windows ends lines. Only a line feed ends a line, and a carriage return belongs"
        " to the word that it touches. Save the text with plain line feeds, or run `tr -d '\\r'` over it.",
    ),
    (
        "\t",
        " ",
        "It has a tab. Only spaces separate words, and a tab belongs to the word that it touches: write spaces.",
    ),
    (
        "\ufeff",
        "",
        "It has a byte order mark (the bytes EF BB BF), which belongs to the word that it touches. Save the text"
        " without one: `tail -c +4` takes off one at its beginning.",
    ),
    (
        "\u00a0\u2007\u2009\u202f\u3000",
        " ",
        "It has a space that is not the plain one, and belongs to the word that it touches: write plain spaces.",
    ),
    (
        "\u2010\u2011\u2012\u2013\u2014\u2212",
        "-",
        "It has a dash that is not the hyphen of the keyboard: a negative number begins with `-`.",
    ),
)
PLAIN_CHARACTERS = {ord(odd): plain for odds, plain, _ in ODD_CHARACTERS for odd in odds}
INNER_RETURN = (
    "It has carriage returns inside, as old programs end lines. Only a line feed ends a line: run `tr '\\r' '\\n'` over"
    " the text."
)

AMBIGUOUS = re.compile(r"[+-]?[0-9]{1,3}(\.[0-9]{3})+")
SEPARATED = re.compile(r"[+-]?[0-9]{1,3}(,[0-9]{3})+|[+-]?[0-9]+([_'\u2019][0-9]+)+")
DECIMAL = re.compile(r"[+-]?([0-9]+\.[0-9]*|\.[0-9]+)")
EXPONENT = re.compile(r"[+-]?([0-9]+(\.[0-9]*)?|\.[0-9]+)[eE][+-]?[0-9]{1,9}")
WHOLE = re.compile(r"[+-]?[0-9]+")
# Why a word is no number, by the first form that it has.
FORMS = (
    (re.compile(r"#.*"), "begins a comment, which needs a line of its own"),
    (SEPARATED, "has separators between its digits: leave them out"),
    (AMBIGUOUS, "has a point: if it separates thousands, leave it out, and if decimals, choose a smaller unit"),
    (DECIMAL, "has a decimal point, and numbers are whole: choose a smaller unit, so that all of them are"),
    (re.compile(r"[+-]?[0-9]+,[0-9]+"), "has a decimal comma, and numbers are whole: choose a smaller unit"),
    (EXPONENT, "has an exponent: write out all digits"),
    (re.compile(r"\+[0-9]+"), "has a plus sign: leave it out"),
    (re.compile(r"-0+"), "is zero with a minus sign: write `0`"),
    (re.compile(r"-?0[0-9]+"), "begins with a zero: leave it out"),
    (re.compile(r"0[xX][0-9a-fA-F]+"), "is in base 16: write it in decimal digits"),
    (re.compile(r"[+-]?[0-9.,]+[^0-9.,]+"), "has more than digits: lengths are in lattice steps, without a unit"),
)
NO_NUMBER = "is no number: digits alone, after a `-` if it is negative"


def characters(data):
    """The characters of some bytes; a byte that is none of UTF-8 is kept as one that stands for it."""
    return data.decode("utf-8", "surrogateescape")


def in_bytes(text):
    """The bytes of characters, back again."""
    return text.encode("utf-8", "surrogateescape")


def shown(data, most=MOST_SHOWN):
    """Some bytes as they are printed: what is not printable as a code, and no more than so many characters."""
    begin = data[: 4 * most].decode("utf-8", "backslashreplace")
    text = "".join(c if c.isprintable() else ascii(c)[1:-1] for c in begin)
    return text if len(text) <= most else f"{text[:most]}.. ({len(data)} bytes)"


def wide_encoding(text):
    """The encoding of a text with two or four bytes a character, as `iconv` names it; None if it is another."""
    named = next((name for mark, name in WIDE_MARKS if text.startswith(mark)), None)
    head = text[:8]
    if named or len(head) < 2:
        return named
    zeros = [not any(head[0::2]) and all(head[1::2]), not any(head[1::2]) and all(head[0::2])]
    return "UTF-16BE" if zeros[0] else "UTF-16LE" if zeros[1] else None


def oddities(line):
    """What to say of the characters of a line that are not plain, one sentence or more for each kind."""
    text = characters(line)
    if "\r" in text.rstrip("\r "):
        return [INNER_RETURN]
    return [sentence for odds, _, sentence in ODD_CHARACTERS if any(odd in text for odd in odds)]


def in_plain_characters(line):
    """A line with plain characters in place of those that are not."""
    return in_bytes(characters(line).translate(PLAIN_CHARACTERS)).strip(b" ")


def why_no_number(word):
    """Why a word is no number, to be read after the word."""
    text = characters(word)
    return next((why for form, why in FORMS if form.fullmatch(text)), NO_NUMBER)


def respelled(word):
    """A word of characters as a scene spells it, if it is a whole number in another notation; else the word."""
    digits = re.sub(r"[,_'\u2019]", "", word) if SEPARATED.fullmatch(word) else word
    if AMBIGUOUS.fullmatch(digits) or not any(form.fullmatch(digits) for form in (WHOLE, DECIMAL, EXPONENT)):
        return word
    value = Decimal(digits)
    is_whole = value.adjusted() < MOST_DIGITS and value == value.to_integral_value()
    return str(int(value)) if is_whole else word


def in_plain_words(line):
    """The words of a line as its writer may have meant it: a key in lower case, no comment, numbers as numbers."""
    words = [word for word in characters(in_plain_characters(line)).split(" ") if word]
    comment = next((i for i, word in enumerate(words) if word.startswith("#")), len(words))
    key, values = words[: min(1, comment)], words[1:comment]
    return [in_bytes(word) for word in [*map(str.lower, key), *map(respelled, values)]]
