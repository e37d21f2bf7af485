"""Names as a terminal may print them, as printable.awk writes them."""
from __future__ import annotations

import os

# Marks that change the direction of a line.
TURNS = {0x200E, 0x200F, *range(0x202A, 0x202F), *range(0x2066, 0x206A)}
UNITS = (("d", 86400), ("h", 3600), ("m", 60))


def is_hidden(letter: str) -> bool:
    """Whether a character is written as its bytes: a control, a mark of direction, or a byte that is not UTF-8."""
    code = ord(letter)
    return code < 32 or 127 <= code < 160 or code in TURNS or 0xDC80 <= code <= 0xDCFF


def shown(name: bytes) -> str:
    """A name without anything that steers a terminal. Where a byte is written as \\xNN, a backslash is doubled."""
    letters = name.decode("utf-8", "surrogateescape")
    if not any(map(is_hidden, letters)):
        return letters
    return "".join(shown_letter(letter) for letter in letters)


def shown_letter(letter: str) -> str:
    """One character of a name with hidden ones."""
    if is_hidden(letter):
        return "".join("\\x%02x" % byte for byte in letter.encode("utf-8", "surrogateescape"))
    return "\\\\" if letter == "\\" else letter


def shown_path(path: str) -> str:
    """The same of a path that the system gave."""
    return shown(os.fsencode(path))


def shown_age(seconds: float) -> str:
    """A time in the largest unit of which there are two."""
    for name, size in UNITS:
        if seconds >= 2 * size:
            return "%d%s" % (seconds // size, name)
    return "%ds" % max(0, seconds)
