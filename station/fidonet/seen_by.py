"""Takes points out of SEEN-BY lines: for other systems a point is a part of its boss."""
from __future__ import annotations

from typing import Optional

SEEN_BY = b"SEEN-BY:"
BLANKS = b" \t\n"
Places = set[tuple[int, int]]


def without_line_feeds(line: bytes) -> bytes:
    """A line as tossers read it."""
    return line.lstrip(b"\n")


def is_control(line: bytes) -> bool:
    """Whether a line may be in the control tail of a message."""
    line = without_line_feeds(line)
    return line.startswith((SEEN_BY, b"\1")) or not line.strip(BLANKS)


def places_of(words: list[bytes]) -> list[tuple[bytes, Optional[tuple[int, int]]]]:
    """Each word of a SEEN-BY line with the net and node that it means. A word without a net has that before it."""
    found, net = [], None
    for word in words:
        parts = word.split(b"/")
        is_number = len(parts) <= 2 and all(part.isdigit() for part in parts)
        if is_number and len(parts) == 2:
            net = int(parts[0])
        place = (net, int(parts[-1])) if is_number and net is not None else None
        found.append((word, place))
    return found


def line_without(line: bytes, points: Places) -> Optional[bytes]:
    """A SEEN-BY line without points: the same line if it has none, nothing if it had only them."""
    entries = places_of(without_line_feeds(line)[len(SEEN_BY) :].split())
    kept = [(word, place) for word, place in entries if place not in points]
    if len(kept) == len(entries):
        return line
    words, net = [], None
    for word, place in kept:
        if place is None:
            words.append(word)
            continue
        words.append(b"%d" % place[1] if place[0] == net else b"%d/%d" % place)
        net = place[0]
    return SEEN_BY + b" " + b" ".join(words) if words else None


def text_without(text: bytes, points: Places) -> Optional[bytes]:
    """A text without points in its control tail, or nothing if it has none there."""
    lines = text.split(b"\r")
    closing = [lines.pop()] if lines[-1] == b"" else []
    first = len(lines)
    while first > 1 and is_control(lines[first - 1]):
        first -= 1
    new: list[bytes] = lines[:first]
    for line in lines[first:]:
        kept = line_without(line, points) if without_line_feeds(line).startswith(SEEN_BY) else line
        if kept is not None:
            new.append(kept)
    if new == lines:
        return None
    # A line that goes takes the end of the line before it along, if the text has no end of its own.
    return b"\r".join(new + closing)
