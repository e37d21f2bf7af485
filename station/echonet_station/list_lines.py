"""The lines of `echonet list --short`: number, area and state of each message."""
from __future__ import annotations

from dataclasses import dataclass
from typing import Iterator

from .calls import call, program
from .station import Station

WAITING, PURGED, SCANNED = "waiting", "purged", ""
STATES = (WAITING, PURGED)


@dataclass(frozen=True)
class Line:
    """A message of the base."""

    number: int
    tag: str
    state: str


def lines_of(station: Station, first: int, tag: str = "") -> Iterator[Line]:
    """The messages from a number on, of one area or of all. Tags are as they are printed."""
    words = ("list", "--explain", "--short", *(("--area", tag) if tag else ()), "--from", str(first), station.at("base"))
    ran = call(program(), *words)
    if ran.status:
        raise ran.stopped()
    for line in ran.output.split("\n"):
        number, _, rest = line.partition(" ")
        if number.isdecimal():
            parts = rest.rsplit(" | ", 2)
            state = parts.pop() if parts[-1] in STATES else SCANNED
            yield Line(int(number), parts[-1], state)
