"""Reads and writes all areas of a file that have news.

A line of the file is `TAG KIND PATH`. KIND is `msg` for a folder of stored messages, or `jam` for a JAM base. A path that does
not begin with / is below the station. A line that begins with `;` is a comment. A faulty line refuses the run.

An area has news if its messages in the base are not as many as in the last run, or if an editor changed a file of it.
FILE.state has what the last run found, and FILE.seen its time. If one of them is missing, all areas are done. An area with a
fault is done again by the next run. The areas after it are done, and the greatest status counts."""
from __future__ import annotations

import os
import re
import stat
import sys
import time
from dataclasses import dataclass
from os.path import exists, join

from .calls import call, program
from .faults import Status
from .locks import locked
from .read_folder import MESSAGE, WRITING, FolderReader
from .read_jam import JamReader, mark_of
from .reading import Ended, Reader
from .running import status_of
from .station import Station, names_in

LINE = re.compile(r"[ \t]*([^ \t]+)[ \t]+([^ \t]+)[ \t]*(.*)", re.S)
KINDS = ("msg", "jam")
CONTROL = re.compile(r"[\x01-\x1f\x7f]")
NOTHING_NEW = "exported 0 messages"
AREA_LINE = re.compile(r"^area (\S+) messages ([0-9]+) ", re.M)


@dataclass(frozen=True)
class ReadArea:
    """An area of the file, with its folder or its JAM base."""

    tag: str
    kind: str
    path: str

    def line(self, count: int) -> str:
        """What the state of the last run says of it."""
        return "%d\t%s\t%s\t%s" % (count, self.tag, self.kind, self.path)


def areas_of(station: Station, path: str) -> list[ReadArea]:
    """The areas of the file."""
    with open(path, "rb") as file:
        lines = os.fsdecode(file.read()).split("\n")
    areas, has_fault = [], False
    for number, line in enumerate(lines, 1):
        line = line[:-1] if line.endswith("\r") else line
        if line.startswith(";") or not line.strip(" \t"):
            continue
        found = LINE.fullmatch(line)
        place = found[3].rstrip(" \t/") if found else ""
        if not found or not place or found[2] not in KINDS or CONTROL.search(place):
            print("%s:%d: expected TAG msg PATH or TAG jam PATH" % (path, number), file=sys.stderr, flush=True)
            has_fault = True
            continue
        areas.append(ReadArea(found[1].upper(), found[2], place if place.startswith("/") else join(station.folder, place)))
    if has_fault:
        raise Ended(Status.REFUSED)
    return areas


def for_goldED(areas: list[ReadArea]) -> int:
    """Prints the lines of GoldED for these areas."""
    for area in areas:
        print('AREADEF %s "%s" 0 Echo %s %s' % (area.tag, area.tag, "JAM" if area.kind == "jam" else "Opus", area.path))
    return Status.GOOD


def marks_of_base(station: Station) -> list[str]:
    """Time, size and number of each file of the base, as `stat` prints them."""
    base, lines = station.at("base"), []
    for path in [base, *(join(base, name) for name in (names_in(base) if os.path.isdir(base) else []) if not name.startswith("."))]:
        if exists(path):
            lines.append("base\t%s %s %d" % (path, mark_of(path), os.stat(path).st_ino))
    return lines


class AreasReader:
    """One run for all areas of a file."""

    def __init__(self, station: Station, path: str, is_unlocked: bool) -> None:
        self.station = station
        self.path = path
        self.is_unlocked = is_unlocked
        self.areas = areas_of(station, path)

    def run(self) -> int:
        """Reads the areas with news, and notes what was found."""
        with locked(self.path + ".lock"):
            seen = self.path + ".seen"
            self.station.disk.stage(seen + ".new", b"")
            moment = time.time_ns() - WRITING
            self.station.disk.set_time(seen + ".new", moment)
            known = self.known_lines()
            base = marks_of_base(self.station)
            status, lines = self.read_those_with_news(known, self.counts(known, base))
            content = "".join(line + "\n" for line in lines + (base if status <= Status.HAND else []))
            self.station.disk.stage(self.path + ".state.new", os.fsencode(content))
            self.station.disk.rename(self.path + ".state.new", self.path + ".state")
            self.station.disk.rename(seen + ".new", seen)
        return status

    def known_lines(self) -> list[str]:
        """The lines of the last run."""
        if not (exists(self.path + ".seen") and exists(self.path + ".state")):
            return []
        with open(self.path + ".state", "rb") as file:
            return os.fsdecode(file.read()).split("\n")[:-1]

    def counts(self, known: list[str], base: list[str]) -> dict[str, int]:
        """How many messages each area has. If the files of the base are those of the last run, the counts are, too."""
        if base == [line for line in known if line.startswith("base\t")]:
            parts = (line.split("\t") for line in known if not line.startswith("base\t"))
            return {words[1]: int(words[0]) for words in parts}
        if not base:
            return {}
        ran = call(program(), "list", "--explain", "--areas", self.station.at("base"))
        if ran.status:
            sys.stderr.write(ran.faults)
            raise Ended(min(ran.status, Status.COMMAND))
        return {tag: int(count) for tag, count in AREA_LINE.findall(ran.output)}

    def read_those_with_news(self, known: list[str], counts: dict[str, int]) -> tuple[int, list[str]]:
        """Reads the areas with news. Returns the greatest status, and the lines of those that are done."""
        before = set(known)
        limit = os.stat(self.path + ".seen").st_mtime_ns if known else 0
        status, quiet = 0, []
        for area in self.areas:
            line = area.line(counts.get(area.tag, 0))
            ended = 0
            if line not in before or self.has_changed(area, limit):
                ended = self.read(area)
                status = max(status, ended)
            if ended <= Status.HAND:
                quiet.append(line)
        return status, quiet

    def has_changed(self, area: ReadArea, limit: int) -> bool:
        """Whether an editor changed a file of the area after the last run, or none was done yet."""
        if area.kind == "jam":
            return not exists(area.path + ".jhr") or seen_mark(area.path) != mark_of(area.path + ".jhr")
        if not exists(join(area.path, "next")):
            return True
        with os.scandir(area.path) as entries:
            for entry in entries:
                if MESSAGE.fullmatch(entry.name):
                    try:
                        about = entry.stat(follow_symlinks=False)
                    except FileNotFoundError:
                        continue
                    if stat.S_ISREG(about.st_mode) and about.st_ctime_ns > limit:
                        return True
        return False

    def read(self, area: ReadArea) -> int:
        """Reads an area. Its lines come after the tag."""

        def say(lines: str) -> None:
            for line in lines.split("\n"):
                if not line.startswith(NOTHING_NEW):
                    self.station.say("%s: %s" % (area.tag, line))

        reader = JamReader if area.kind == "jam" else FolderReader
        return status_of(lambda: run_reader(reader(self.station, area.tag, area.path, say), self.is_unlocked))


def seen_mark(path: str) -> str:
    """What was noted of a JAM base after the last run."""
    try:
        with open(path + ".seen", encoding="latin-1") as file:
            return file.readline().rstrip("\n")
    except FileNotFoundError:
        return ""


def run_reader(reader: Reader, is_unlocked: bool) -> int:
    """Runs the reader of an area."""
    if isinstance(reader, JamReader):
        reader.is_unlocked = is_unlocked
    return reader.run()
