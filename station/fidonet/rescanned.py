"""Messages that were sent again by a rescan: all own links are added to their SEEN-BY lines, so that nobody gets them."""
from __future__ import annotations

import re

from .seen_by import SEEN_BY, Places, is_control, without_line_feeds

WORD = b"\x01RESCANNED"
LINE = re.compile(rb"(?:^|\r)\n*\x01RESCANNED(?=[ \t:\r]|\Z)")
PATH = b"\x01PATH"
MOST_OF_A_LINE = 79


def is_rescanned(text: bytes) -> bool:
    """Whether a text says that it was sent by a rescan."""
    return WORD in text and LINE.search(text) is not None


def seen_by_lines(places: Places) -> list[bytes]:
    """SEEN-BY lines with some systems."""
    lines, line, net = [], SEEN_BY, 0
    for place in sorted(places):
        word = b" %d" % place[1] if place[0] == net else b" %d/%d" % place
        if len(line) + len(word) > MOST_OF_A_LINE:
            lines.append(line)
            line, word = SEEN_BY, b" %d/%d" % place
        line, net = line + word, place[0]
    return [*lines, line] if places else []


def seen_by_all(text: bytes, places: Places) -> bytes:
    """The text with some systems in its SEEN-BY: before its PATH, or else at its end."""
    lines = text.split(b"\r")
    closing = [b""]
    if lines[-1] == b"":
        lines.pop()
    first = len(lines)
    while first > 1 and is_control(lines[first - 1]):
        first -= 1
    place = next((at for at in range(first, len(lines)) if without_line_feeds(lines[at]).startswith(PATH)), len(lines))
    return b"\r".join([*lines[:place], *seen_by_lines(places), *lines[place:], *closing])
