"""The lines of a letter to AreaFix, and how they are quoted."""
from __future__ import annotations

import re
from dataclasses import dataclass
from enum import Enum
from typing import Iterator

from .printing import shown

MOST_LINES = 200
MOST_QUOTED = 60
MOST_RESCANNED = 1000
TAG = re.compile(rb"[!-~]{1,60}")
LINE_END = re.compile(rb"[\r\n]+")
NUMBER = re.compile(rb"[0-9]{1,9}")
FORMS = (
    "+TAG or TAG: the area, please",
    "-TAG: the area no more",
    "%LIST: all areas, those that you have with a star",
    "%QUERY: those that you have",
    "%UNLINKED: those that you do not have",
    "%RESCAN TAG N: the last N messages again",
    "%PAUSE: no mail until %RESUME",
    "%RESUME: mail again, also what came meanwhile",
    "%HELP: this text",
)


class Kind(Enum):
    """What a line wants."""

    ADD = "+"
    REMOVE = "-"
    LIST = "%LIST"
    QUERY = "%QUERY"
    UNLINKED = "%UNLINKED"
    RESCAN = "%RESCAN"
    PAUSE = "%PAUSE"
    RESUME = "%RESUME"
    HELP = "%HELP"
    UNKNOWN = ""


ALONE = {kind.value.encode(): kind for kind in (Kind.LIST, Kind.QUERY, Kind.UNLINKED, Kind.PAUSE, Kind.RESUME, Kind.HELP)}


@dataclass(frozen=True)
class Wish:
    """A line: what it wants, of which area, of how many messages, and how it is quoted."""

    kind: Kind
    quoted: str
    tag: str = ""
    count: int = MOST_RESCANNED


def quoted(line: bytes) -> str:
    """A line as an answer may have it: escaped, then cut."""
    return shown(line).encode("utf-8")[:MOST_QUOTED].decode("utf-8", "ignore")


def wish_of(line: bytes) -> Wish:
    """What a line wants."""
    words, text = line.split(), quoted(line)
    first = words[0].upper()
    if len(words) == 1 and first in ALONE:
        return Wish(ALONE[first], text)
    if first == b"%RESCAN" and len(words) in (2, 3) and TAG.fullmatch(words[1]):
        if len(words) == 2:
            return Wish(Kind.RESCAN, text, words[1].decode("ascii").upper())
        if NUMBER.fullmatch(words[2]):
            return Wish(Kind.RESCAN, text, words[1].decode("ascii").upper(), min(int(words[2]), MOST_RESCANNED))
    kind = {b"-": Kind.REMOVE, b"+": Kind.ADD}.get(first[:1], Kind.ADD)
    tag = words[0][first[:1] in (b"+", b"-") :]
    if len(words) == 1 and TAG.fullmatch(tag) and not first.startswith(b"%"):
        return Wish(kind, text, tag.decode("ascii").upper())
    return Wish(Kind.UNKNOWN, text)


def wishes_in(text: bytes) -> Iterator[Wish]:
    """The lines of a letter that count, up to its tear line."""
    count = 0
    for line in LINE_END.split(text):
        if line.rstrip() == b"---" or line.startswith(b"--- "):
            return
        line = line.strip(b" \t")
        if not line or line.startswith(b"\x01") or not line.split():
            continue
        count += 1
        if count > MOST_LINES:
            return
        yield wish_of(line)
