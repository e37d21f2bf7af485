"""Puts files into bad/, each with the reason in NAME.why."""
from __future__ import annotations

import os
from os.path import isfile, join, lexists
from typing import Iterator

from .printing import shown
from .station import Station

MOST_NAME = 200
PIECE = 1 << 16
BY_GATE = "gate: "  # `retoss` knows by this word what did not pass the gate


def numbered(name: str) -> Iterator[str]:
    """A name, and the names NAME.1.ENDING and so on for others that came with it."""
    yield name
    stem, dot, ending = name.rpartition(".")
    if not stem:
        stem, dot, ending = name, "", ""
    number = 0
    while True:
        number += 1
        yield "%s.%d%s%s" % (stem, number, dot, ending)


def with_word(name: str, word: str) -> str:
    """A name with a word before its ending."""
    stem, dot, ending = name.rpartition(".")
    return "%s.%s.%s" % (stem, word, ending) if stem else name + "." + word


def is_same(path: str, other: str) -> bool:
    """Whether two files have the same bytes."""
    if not (isfile(path) and isfile(other)) or os.stat(path).st_size != os.stat(other).st_size:
        return False
    with open(path, "rb") as left, open(other, "rb") as right:
        while True:
            piece = left.read(PIECE)
            if piece != right.read(PIECE):
                return False
            if not piece:
                return True


def put_aside(station: Station, path: str, came: str, why: str, sender: str = "-") -> None:
    """Moves a file into bad/. If the same bytes lie there under its name, nothing is added. The bytes are on the disk
    already."""
    disk, folder = station.disk, station.at("bad")
    disk.make_folder(folder)
    for name in numbered(came):
        place = join(folder, name)
        if not lexists(place) or is_same(place, path):
            break
    reason = BY_GATE + why
    disk.write(place + ".why", (reason + "\n").encode("utf-8", "backslashreplace"))
    disk.sync(folder)
    disk.rename(path, place)
    disk.unlink(path)  # after a power cut it may be a second name of that file: then nothing was renamed
    disk.sync(folder)
    station.has_put_aside = True
    station.warn("put aside %s: %s" % (shown(os.fsencode(name)), reason))
    station.log("aside %s from %s %s" % (shown(os.fsencode(name)), sender, reason))
