"""Prints the link file for others: for them a point is a part of its boss."""
from __future__ import annotations

from fidonet.addresses import address_of

from .faults import Status
from .station import Station


def publish(station: Station, _: list[str]) -> int:
    """The command `publish`."""
    station.load()
    points = {fake for fake in station.peers.real_of if fake != station.own}
    with open(station.at("links"), encoding="utf-8", errors="surrogateescape") as file:
        lines = file.read().split("\n")
    for line in map(str.rstrip, lines):
        words = line.split()
        if words[:1] == ["AREA"]:
            line = " ".join(words[:2] + [word for word in words[2:] if address_of(word) not in points])
        if words and not line.startswith(";"):
            print(line)
    return Status.GOOD
