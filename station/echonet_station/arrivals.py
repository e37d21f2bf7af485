"""The messages that arrived in some days: how many of each area came from which link, and how many copies went on."""
from __future__ import annotations

import json
import re
import subprocess
from collections import Counter
from dataclasses import dataclass, field
from os.path import lexists
from typing import Iterator

from fidonet.addresses import address_of

from .calls import program
from .counts import count_of
from .seen_links import first_of
from .station import Station

LINE = re.compile(r'\{"number":([0-9]+),"area":("(?:[^"\\]|\\.)*"),"state":"([a-z]+)","sender":(?:null|"([0-9:/]+)"),')
SEEN_BY = ',"seenby":['  # no text has this without a backslash before its quotes


@dataclass
class Arrivals:
    """Counts of messages that links sent."""

    filed: Counter[str] = field(default_factory=Counter)  # by area
    sent: Counter[str] = field(default_factory=Counter)  # copies, by area
    by_link: Counter[tuple[str, str]] = field(default_factory=Counter)  # by area and link


def arrivals_in(station: Station, *days: int) -> list[Arrivals]:
    """What arrived in the last days, by the file `days`: all, if that has no line so old. Copies are those of today's link
    file. A message that waits has none yet."""
    found = [Arrivals() for _ in days]
    now = count_of(station) if lexists(station.at("base")) else 0
    if not now:
        return found
    firsts = [first_of(station, number, now) for number in days]
    for line in lines_from(station, min(firsts)):
        head = LINE.match(line)
        if head and head[4]:
            for arrivals, first in zip(found, firsts):
                if int(head[1]) >= first:
                    add(arrivals, station, json.loads(head[2]), head[3], head[4], line)
    return found


def lines_from(station: Station, first: int) -> Iterator[str]:
    """The messages of the base from a number on, a line each. They are read one by one: a base may be large."""
    words = (program(), "export", "--json", "--purged", "--from", str(first), station.at("base"))
    with subprocess.Popen(words, stdin=subprocess.DEVNULL, stdout=subprocess.PIPE, stderr=subprocess.DEVNULL) as source:
        if source.stdout:
            for line in source.stdout:
                yield line.decode("utf-8", "replace")


def add(found: Arrivals, station: Station, tag: str, state: str, sender: str, line: str) -> None:
    """Adds a message."""
    found.filed[tag] += 1
    found.by_link[tag, sender] += 1
    if state == "waiting":
        return
    place = line.find(SEEN_BY) + len(SEEN_BY)
    seen = set(line[place : line.find("]", place)].split(","))
    by = address_of(sender)
    for link in station.areas.get(tag, ()):
        found.sent[tag] += link != by and '"%d/%d"' % link.place() not in seen
