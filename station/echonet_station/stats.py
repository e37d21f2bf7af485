"""Counts what came and went, by area, link and day. Nothing is kept: the log and the base say it each time."""
from __future__ import annotations

import json
import time
from dataclasses import dataclass

from fidonet.addresses import Address, address_of

from .arrivals import arrivals_in
from .faults import Status
from .log_sums import DAY, LinkSums, sums_since
from .options import Given, given_by, refused
from .station import Station
from .words import BY_NAME

USUAL_DAYS = 30
MOST_DIGITS = 5


@dataclass(frozen=True)
class Row:
    """A line: what it is about, and its counts."""

    kind: str
    name: str
    counts: dict[str, int]

    def __str__(self) -> str:
        return " ".join([self.kind, self.name, *("%s %d" % pair for pair in self.counts.items())])


def days_in(given: Given) -> int:
    """How many days are counted."""
    word = given.one("--days") or str(USUAL_DAYS)
    if not (word.isascii() and word.isdigit() and len(word) <= MOST_DIGITS):
        raise refused(BY_NAME["stats"], "bad number")
    return int(word)


def rows_of(station: Station, days: int) -> list[Row]:
    """The lines of areas, of links and of days, each ascending."""
    (sums,) = sums_since(station, time.time() - days * DAY)
    (arrived,) = arrivals_in(station, days)
    known: dict[str, int] = {}
    for (tag, _), count in sums.known.items():
        known[tag] = known.get(tag, 0) + count
    tags = sorted({*station.areas, *arrived.filed, *known})
    rows = [Row("area", tag, {"filed": arrived.filed[tag], "known": known.get(tag, 0), "sent": arrived.sent[tag]}) for tag in tags]
    links: dict[Address, LinkSums] = {station.peers.net_address(link): LinkSums() for link in station.links()}
    for name, link in sums.links.items():
        address = address_of(name, may_be_point=True)
        if address:
            links[address] = link
    for address, it in sorted(links.items()):
        counts = {"came": it.came, "known": it.known, "aside": it.aside, "sent": it.sent, "bytes": it.bytes}
        rows.append(Row("link", str(address), counts))
    return rows + [Row("day", day, {"filed": it.filed, "sent": it.sent}) for day, it in sorted(sums.days.items())]


def stats(station: Station, words: list[str]) -> int:
    """The command `stats`."""
    given = given_by(BY_NAME["stats"], words)
    days = days_in(given)
    station.load()
    rows = rows_of(station, days)
    if given.has("--json"):
        found: dict[str, list[dict[str, object]]] = {"area": [], "link": [], "day": []}
        for row in rows:
            found[row.kind].append({row.kind: row.name, **row.counts})
        station.say(json.dumps(found))
    else:
        for row in rows:
            station.say(str(row))
    return Status.GOOD
