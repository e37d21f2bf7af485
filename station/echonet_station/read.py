"""Lets a reader such as GoldED read and write areas: one in a folder or a JAM base, or all of a file."""
from __future__ import annotations

from .faults import Status, Stopped
from .options import given_by
from .read_areas import AreasReader, areas_of, for_goldED, run_reader
from .read_folder import FolderReader
from .read_jam import JamReader
from .reading import Reader
from .station import CONTROL, Station
from .words import BY_NAME


def read(station: Station, words: list[str]) -> int:
    """The command `read`."""
    given = given_by(BY_NAME["read"], words)
    path, is_jam = given.words[-1], given.has("--jam")
    if CONTROL.search(path):
        raise Stopped(Status.COMMAND, "control byte in a path")
    if len(given.words) == (1 if is_jam else 2) and given.has("--areadef"):
        raise Stopped(Status.COMMAND, "read: --areadef takes a file of areas")
    if len(given.words) == 2:
        return read_one(station, given.words[0], path, is_jam, given.has("--unlocked"))
    if is_jam:
        raise Stopped(Status.COMMAND, "read: --jam takes an area and the path of a JAM base")
    if given.has("--areadef"):
        return for_goldED(areas_of(station, path))
    return AreasReader(station, path, given.has("--unlocked")).run()


def read_one(station: Station, area: str, path: str, is_jam: bool, is_unlocked: bool) -> int:
    """Reads and writes one area."""
    kind = JamReader if is_jam else FolderReader
    reader: Reader = kind(station, area, path, station.say, area.upper() + ": ")
    return run_reader(reader, is_unlocked)
