"""The flow files of the mailer: which packets wait for which link."""
from __future__ import annotations

import os
import re
from dataclasses import dataclass, field
from os.path import basename, dirname, isdir, join, lexists
from typing import Iterator, Optional

from fidonet.addresses import Address, address_of

from .faults import Status, Stopped
from .station import Station, names_in

FLOW = re.compile(r"([0-9a-f]{8})\.[a-z]lo", re.I)
HOLD = re.compile(r"([0-9a-f]{8})\.bsy", re.I)
POINTS = re.compile(r"([0-9a-f]{8})\.pnt", re.I)
ZONE = re.compile(r"\.([0-9a-f]{3,4})")
MARKS = ("^", "#")  # remove, or empty, what was sent


@dataclass
class Flow:
    """What waits for one link."""

    link: Address
    there: list[str] = field(default_factory=list)
    gone: int = 0
    hold: Optional[str] = None


def folders_of(station: Station) -> Iterator[tuple[int, str]]:
    """The folders of flow files, each with its zone."""
    yield station.own.zone, station.outbound
    parent, name = dirname(station.outbound), basename(station.outbound)
    for other in names_in(parent):
        zone = ZONE.fullmatch(other[len(name) :]) if other.startswith(name) else None
        if zone and isdir(join(parent, other)):
            yield int(zone[1], 16), join(parent, other)


def files_of(station: Station) -> Iterator[tuple[Address, str]]:
    """All files of these folders and of those for points, each with the address that the path says."""
    for zone, folder in folders_of(station):
        for name in names_in(folder):
            path = join(folder, name)
            boss = name[:8]
            if POINTS.fullmatch(name) and isdir(path):
                for file in names_in(path):
                    if FLOW.fullmatch(file) or HOLD.fullmatch(file):
                        yield address_in(zone, boss, int(file[:8], 16)), join(path, file)
            elif FLOW.fullmatch(name) or HOLD.fullmatch(name):
                yield address_in(zone, boss, 0), path


def address_in(zone: int, digits: str, point: int) -> Address:
    """The address of eight hexadecimal digits."""
    return Address(zone, int(digits[:4], 16), int(digits[4:], 16), point)


def flows(station: Station) -> list[Flow]:
    """What waits for each link, in order of addresses."""
    found: dict[Address, Flow] = {}
    for link, path in files_of(station):
        flow = found.setdefault(link, Flow(link))
        if HOLD.fullmatch(basename(path)):
            flow.hold = path
            continue
        with open(path, encoding="utf-8", errors="surrogateescape") as file:
            lines = file.read().split("\n")
        paths = [line[1:].rstrip("\r") for line in lines if line.startswith(MARKS)]
        flow.there += [it for it in paths if lexists(it)]
        flow.gone += sum(not lexists(it) for it in paths)
    return [found[link] for link in sorted(found)]


def size_of(flow: Flow) -> int:
    """The bytes that wait."""
    return sum(os.lstat(path).st_size for path in flow.there)


def flow(station: Station, words: list[str]) -> int:
    """The command `flow`."""
    station.load()
    name = "%s:%s/%s" % tuple(words)
    link = address_of(name)
    if link is None:
        raise Stopped(Status.COMMAND, "no address %s" % name)
    print(station.flow(link))
    return Status.GOOD
