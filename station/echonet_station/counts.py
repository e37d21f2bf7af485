"""How many messages the base has, and had: the files `count` and `days`.

No command removes a message from a base: a purge keeps stubs. So a base with fewer messages than at an earlier scan was
lost, or restored to an older state. It no longer knows which ids it gave."""
from __future__ import annotations

import os
import re
import time
from os.path import isdir, join, lexists
from typing import Optional

from .calls import call, program
from .running import say_fault
from .station import Station

NO_MESSAGE = "4294967295"  # no message has this number, so nothing is listed
END = re.compile(r"^end ([0-9]+) messages", re.M)
NUMBER = re.compile(r"[0-9]{1,15}")
DAY = 86400
COARSE = 2  # seconds: some file systems keep no finer time
MOST_DAYS = 1100
DAY_LINE = re.compile(r"([0-9]{1,15}) ([0-9]{1,15})")


def count_of(station: Station) -> Optional[int]:
    """How many messages the base has: nothing, if it cannot be read."""
    if not lexists(station.at("base")):
        return 0
    found = END.search(call(program(), "list", "--from", NO_MESSAGE, station.at("base")).output)
    return int(found[1]) if found else None


def earlier_count(station: Station) -> Optional[int]:
    """How many it had at an earlier scan."""
    if not lexists(station.at("count")):
        return None
    with open(station.at("count"), encoding="latin-1") as file:
        line = file.readline().rstrip("\n")
    return int(line) if NUMBER.fullmatch(line) else None


def note_count(station: Station) -> None:
    """Notes how many it has, if that is not less than before, and the day if it has grown."""
    before = earlier_count(station)
    now = before if before is not None and is_unchanged(station) else count_of(station)
    if now is None:
        return
    note_day(station, now)
    if before is None or now > before:
        replace(station, "count", b"%d\n" % now)
    elif now == before:
        station.disk.set_time(station.at("count"), time.time_ns())


def is_unchanged(station: Station) -> bool:
    """Whether no file of the base changed since two seconds before the count was noted."""
    base = station.at("base")
    try:
        paths = [base, *(join(base, name) for name in (os.listdir(base) if isdir(base) else ()))]
        changed = max(os.stat(path).st_ctime for path in paths)
        return changed < os.stat(station.at("count")).st_mtime - COARSE
    except OSError:
        return False


def replace(station: Station, name: str, content: bytes) -> None:
    """Replaces a file of the station whole."""
    path = station.at(name)
    station.disk.write(path + ".new", content)
    station.disk.rename(path + ".new", path)


def days_of(station: Station, now: int) -> list[tuple[int, int]]:
    """The lines of `days`: seconds since 1970, and how many messages the base had then. If it had more than it has now, it
    was lost: then there are none. The last line may lack its end."""
    path = station.at("days")
    if not lexists(path):
        return []
    with open(path, encoding="latin-1") as file:
        found = filter(None, map(DAY_LINE.fullmatch, file.read().split("\n")))
        days = [(int(line[1]), int(line[2])) for line in found]
    return [] if days and days[-1][1] > now else days


def note_day(station: Station, now: int) -> None:
    """Adds a line a day, if the base has grown."""
    days, second = days_of(station, now), int(time.time())
    if days and (second - days[-1][0] <= DAY or days[-1][1] >= now):
        return
    if not now and not lexists(station.at("days")):
        return
    kept = [*days, (second, now)][-MOST_DAYS:]
    replace(station, "days", b"".join(b"%d %d\n" % day for day in kept))


def may_post(station: Station) -> bool:
    """Whether the base may post. Otherwise this says why not."""
    before = earlier_count(station)
    if before is None:
        return True
    now = count_of(station)
    if now is None or now >= before:
        return True
    say_fault(
        "the base has %d messages and had %d: it was lost or restored. Repair it, then post"
        " (echonet-station STATION repair; or remove %s)" % (now, before, join(station.given, "count"))
    )
    return False
