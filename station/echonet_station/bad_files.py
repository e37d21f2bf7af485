"""What lies in bad/: its reasons, and the areas that links send and the station lacks."""
from __future__ import annotations

import re
from dataclasses import dataclass
from os.path import lexists
from typing import Optional

from fidonet.addresses import Address

from .aside import BY_GATE
from fidonet.packets import HEADER_SIZE, header_of

from .station import Station, names_in

NO_AREA = re.compile(r"^message [0-9]+ at [0-9]+ noarea area (\S+)", re.M)


@dataclass(frozen=True)
class NewArea:
    """An area that messages in bad/ are of."""

    tag: str
    sender: Address
    messages: int
    is_stranger: bool

    def __str__(self) -> str:
        stranger = ", a stranger" if self.is_stranger else ""
        return "new area %s from %s %d messages%s" % (self.tag, self.sender, self.messages, stranger)


def bad_files(station: Station) -> list[str]:
    """The files that were put aside."""
    return [name for name in names_in(station.at("bad")) if not name.endswith(".why")]


def reason_of(station: Station, name: str) -> str:
    """The whole reason of a file, or nothing if there is none."""
    path = station.at("bad", name + ".why")
    if not lexists(path):
        return ""
    with open(path, encoding="utf-8", errors="surrogateescape") as file:
        return file.read()


def first_line(station: Station, name: str) -> str:
    """The first line of the reason."""
    return reason_of(station, name).split("\n")[0] or "no reason"


def passed_gate(station: Station, name: str) -> bool:
    """Whether toss put a file aside. Then the gate has taken its password off."""
    reason = reason_of(station, name)
    return bool(reason) and not reason.startswith(BY_GATE)


def sender_of(station: Station, name: str) -> Optional[Address]:
    """The sender in the header of a packet in bad/, as the link file names it."""
    try:
        with open(station.at("bad", name), "rb") as file:
            begin = file.read(HEADER_SIZE)
    except OSError:
        return None
    if len(begin) < HEADER_SIZE:
        return None
    sender = header_of(begin, station.own.zone).sender
    return station.peers.fake_of.get(sender, sender)


def tags_in(station: Station, name: str) -> list[str]:
    """The areas of refused messages, one for each message."""
    return NO_AREA.findall(reason_of(station, name))


def new_areas(station: Station) -> list[NewArea]:
    """The areas that the station lacks, with their senders."""
    counts: dict[tuple[str, Address], int] = {}
    for name in bad_files(station):
        tags = tags_in(station, name)
        sender = sender_of(station, name) if tags else None
        if sender is not None:
            for tag in tags:
                counts[tag, sender] = counts.get((tag, sender), 0) + 1
    known = station.links() | set(station.peers.peers)
    return [
        NewArea(tag, sender, count, sender not in known)
        for (tag, sender), count in sorted(counts.items())
        if tag not in station.areas
    ]
