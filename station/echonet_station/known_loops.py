"""A loop that is seen in the mail: a link sends much that is known."""
from __future__ import annotations

from dataclasses import dataclass

from typing import Optional

from fidonet.addresses import address_of

from .arrivals import arrivals_in
from .log_sums import LogSums, sums_of_days
from .station import Station

DAYS = 7
LEAST = 20
SHARE = 4  # one of so many


@dataclass(frozen=True)
class KnownLoop:
    """What a link sent of an area: known messages, and all."""

    tag: str
    link: str
    known: int
    messages: int

    def __str__(self) -> str:
        what = (self.known, self.messages, self.tag, self.link, DAYS)
        return "known: %d of %d messages of %s from %s were known in %d days: a loop, or a rescan (net-page)" % what


def loops_seen(station: Station, sums: Optional[LogSums] = None) -> list[KnownLoop]:
    """The areas and links with many known messages, by the sums of these days. Only then the base is read."""
    sums = sums or sums_of_days(station, DAYS)[DAYS]
    many = {key: count for key, count in sums.known.items() if count >= LEAST}
    if not many:
        return []
    arrived = arrivals_in(station, DAYS)[0].by_link
    found = []
    for (tag, link), known in sorted(many.items()):
        address = address_of(link, may_be_point=True)
        name = str(station.peers.link_of(address)) if address else link
        messages = known + arrived[tag, name]
        if known * SHARE >= messages:
            found.append(KnownLoop(tag, link, known, messages))
    return found
