"""Reports files that stay in the folder of received files: once, after ten minutes.

STATION/left has a line for each: the second in which a run first saw it, or 0 after the report, and its name."""
from __future__ import annotations

import os
import re
import stat
import time

from .printing import shown_path
from .station import Station

LATE = 600  # seconds
KINDS = (
    (re.compile(r".*\.(?:ask|ids)", re.S), "a list for a repair, which the scan answers by echonet-station"),
    (re.compile(r".*\.(?:mo.|t[uh].|we.|fr.|s[au].)", re.I | re.S), "a bundle, which this station does not open"),
    (re.compile(r".*\.pkt", re.I | re.S), "a packet for another station"),
    (re.compile(r".*\.bad", re.I | re.S), "the mailer refused it"),
)


def others_in(folder: str) -> list[str]:
    """The names of a folder that are no folders. A line end in one becomes a question mark."""
    names = []
    with os.scandir(folder) as entries:
        for entry in entries:
            if not stat.S_ISDIR(entry.stat(follow_symlinks=False).st_mode):
                names.append(entry.name.replace("\n", "?"))
    return sorted(names)


def seen_before(path: str) -> dict[str, int]:
    """When each file was first seen."""
    found: dict[str, int] = {}
    try:
        with open(path, "rb") as file:
            lines = os.fsdecode(file.read()).split("\n")
    except FileNotFoundError:
        return found
    for line in lines:
        second, blank, name = line.partition(" ")
        if blank:
            found[name] = int(second) if second.isdecimal() else 0
    return found


def report(station: Station, name: str) -> None:
    """Reports a file. One that looks like mail needs a hand."""
    kind = next((kind for form, kind in KINDS if form.fullmatch(name)), None)
    line = "left %s" % shown_path(name)
    station.warn("%s: %s" % (line, kind or "no packet"))
    station.log("%s %s" % (line, kind or "no packet"))
    if kind:
        station.has_put_aside = True


def report_left(station: Station) -> None:
    """Reports what is there for ten minutes, and notes what was seen."""
    path, now = station.at("left"), int(time.time())
    names = others_in(station.inbound)
    if not names:
        station.disk.unlink(path)
        return
    seen, lines = seen_before(path), []
    for name in names:
        second = min(seen.get(name, now), now)
        if second > 0 and now - second >= LATE:
            report(station, name)
            second = 0
        lines.append("%d %s\n" % (second, name))
    station.disk.stage(path + ".new", os.fsencode("".join(lines)))
    station.disk.rename(path + ".new", path)
