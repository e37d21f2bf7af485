"""Drops the texts of old messages. How old they are says the file `days`, which scans write. A message that a reader has
still to get is kept."""
from __future__ import annotations

import time
from dataclasses import dataclass
from os.path import exists, join, lexists
from typing import Optional

from .calls import call, program
from .counts import DAY, count_of, days_of
from .faults import Status, Stopped
from .list_lines import PURGED, SCANNED, lines_of
from .options import Given, given_by
from .printing import shown_path
from .read_areas import ReadArea, areas_of
from .station import Station
from .words import BY_NAME


@dataclass(frozen=True)
class Limit:
    """The first message that is kept, and the area that still has to get it."""

    number: int
    tag: str


def next_of(area: ReadArea) -> int:
    """The number with which the reader of an area begins."""
    path = area.path + ".next" if area.kind == "jam" else join(area.path, "next")
    if not exists(path):
        return 0
    with open(path, encoding="latin-1") as file:
        word = file.read().strip()
    return int(word) if word.isdecimal() else 0


def first_unread(station: Station, area: ReadArea) -> Optional[int]:
    """The first message that the reader of an area has still to get, if there is one."""
    found = (line.number for line in lines_of(station, next_of(area), area.tag) if line.state != PURGED)
    return next(found, None)


def limit_of(station: Station, tags: list[str], most: int) -> Limit:
    """The messages from this one on are kept: those that are younger, or that a reader has still to get."""
    path, limit = station.at("readers"), Limit(most, "")
    for area in areas_of(station, path) if lexists(path) else []:
        if not tags or area.tag in tags:
            number = first_unread(station, area)
            if number is not None and number < limit.number:
                limit = Limit(number, area.tag)
    return limit


def days_in(given: Given) -> int:
    """The days of `--older`."""
    word = given.one("--older")
    if not word.isdecimal() or len(word) > 9:
        raise Stopped(Status.COMMAND, "purge needs --older DAYS")
    return int(word)


def purge_to(station: Station, tags: list[str], number: int) -> int:
    """Purges what is below a number. Returns how many texts that were."""
    count = 0
    for tag in tags or [""]:
        words = ("purge", "--explain", *(("--area", tag) if tag else ()), "--to", str(number), station.at("links"), station.at("base"))
        ran = call(program(), *words, passes_faults=True)
        if ran.status:
            raise Stopped(Status(ran.status) if ran.status <= Status.COMMAND else Status.FAILED, "")
        count += int(ran.first_line().split(" ")[1])
    return count


def kept_by(station: Station, tags: list[str], limit: Limit, most: int) -> int:
    """How many texts more would go, if no reader had to get one."""
    chosen = {shown_path(tag) for tag in tags}
    lines = lines_of(station, limit.number)
    return sum(line.state == SCANNED and line.number < most and (not chosen or line.tag in chosen) for line in lines)


def purge(station: Station, words: list[str]) -> int:
    """The command `purge`."""
    given = given_by(BY_NAME["purge"], words)
    older, tags = days_in(given), list(dict.fromkeys(tag.upper() for tag in given.all("--area")))
    now = count_of(station)
    if now is None:
        raise Stopped(Status.FAILED, "cannot count the messages of %s" % station.at("base"))
    old = [count for second, count in days_of(station, now) if second <= time.time() - older * DAY]
    if not old:
        station.say("nothing is %d days old" % older)
        return Status.GOOD
    limit = limit_of(station, tags, old[-1])
    purged = purge_to(station, tags, limit.number)
    kept = kept_by(station, tags, limit, old[-1]) if limit.tag else 0
    if kept:
        station.say("purged %d, kept %d for %s: read it first" % (purged, kept, shown_path(limit.tag)))
        return Status.HAND
    station.say("purged %d" % purged)
    return Status.GOOD
