"""What the log of a station says of links, areas and days: its file `log`, and the parts that were rotated."""
from __future__ import annotations

import contextlib
import gzip
import io
import os
import re
import time
import zlib
from collections import Counter, defaultdict
from dataclasses import dataclass, field
from typing import IO, Iterator

from .station import Station, names_in

DAY = 86400
PIECE = 1 << 19  # some thousand lines
LEAST_DATE = 10000000  # logrotate may name parts by numbers, or by dates of eight digits
DATE_SIZE = 10
STAMP = re.compile(rb"[0-9]{4}-[0-9]{2}-[0-9]{2}T")
PART = re.compile(r"log(?:[.-][0-9]+)?(?:\.gz)?")
# A name is a stranger's, and may have any words. What counts is what stands last.
LINE = re.compile(
    rb"^([0-9]{4}-[0-9]{2}-[0-9]{2}T[0-9:]{8}Z) (?:"
    rb"(came|aside) .* from (\S+) (?:gate: |filed ([0-9]{1,9}) known ([0-9]{1,9}) notecho )"
    rb"|known ([0-9]{1,9}) (\S+) from (\S+)$"
    rb"|sent .* to (\S+) (?:([0-9]{1,9}) messages )?([0-9]{1,12}) bytes$)",
    re.M,
)


@dataclass
class LinkSums:
    """What came from a link and went to it: messages, packets that were put aside, bytes; and when the last came and went."""

    came: int = 0
    known: int = 0
    aside: int = 0
    sent: int = 0
    bytes: int = 0
    last_came: str = ""
    last_sent: str = ""


@dataclass
class DaySums:
    """The messages of a day."""

    filed: int = 0
    sent: int = 0


@dataclass
class LogSums:
    """The sums of some days. Addresses are those on the net."""

    links: defaultdict[str, LinkSums] = field(default_factory=lambda: defaultdict(LinkSums))
    days: defaultdict[str, DaySums] = field(default_factory=lambda: defaultdict(DaySums))
    known: Counter[tuple[str, str]] = field(default_factory=Counter)  # by area and link

    def add(self, found: re.Match[bytes]) -> None:
        """Adds a line."""
        stamp, kind, sender, filed, known, count, tag, of, to, messages, size = found.groups()
        moment = stamp.decode("ascii")
        if kind:
            link, day = self.links[sender.decode("latin-1")], self.days[moment[:10]]
            link.came += int(filed or 0) + int(known or 0)
            link.known += int(known or 0)
            link.aside += kind == b"aside"
            link.last_came = max(link.last_came, moment)
            day.filed += int(filed or 0)
        elif count:
            self.known[tag.decode("latin-1"), of.decode("latin-1")] += int(count)
        else:
            link, day = self.links[to.decode("latin-1")], self.days[moment[:10]]
            link.sent += int(messages or 0)
            link.bytes += int(size)
            link.last_sent = max(link.last_sent, moment)
            day.sent += int(messages or 0)


def stamp_of(second: float) -> str:
    """A time as the log has it."""
    return time.strftime("%Y-%m-%dT%H:%M:%SZ", time.gmtime(second))


def marks_from(day: str) -> Iterator[str]:
    """What stamps from a day on begin with: its day or a later one of the same ten, a later ten, month or year."""
    year, month, number = int(day[:4]), int(day[5:7]), int(day[8:])
    yield from ("%s%02d" % (day[:8], later) for later in range(number, number // 10 * 10 + 10))
    yield from ("%s%d" % (day[:8], ten) for ten in range(number // 10 + 1, 4))
    yield from ("%04d-%02d" % (year, later) for later in range(month + 1, 13))
    yield from ("%04d" % later for later in range(year + 1, time.gmtime().tm_year + 2))


def begin_of(content: bytes, since: float) -> int:
    """Where the lines from a time on begin: at the first line of its day, or of a later one. A clock may have been set."""
    place = len(content)
    for mark in marks_from(stamp_of(since)[:10]):
        if content.startswith(mark.encode()):
            return 0
        place = content.find(b"\n" + mark.encode(), 0, place) + 1 or place
    return place


def age_of(name: str) -> int:
    """Tells the younger of two parts: it has the smaller number, or the later date."""
    found = re.search("[0-9]+", name)
    number = int(found[0]) if found else 0
    return number if number < LEAST_DATE else 10 * LEAST_DATE - number


def is_older(piece: bytes, since: float) -> bool:
    """Whether no line of a piece of a log is of the day of a time, or of a later one."""
    first = piece.find(b"\n") + 1
    return piece[first : first + DATE_SIZE] < stamp_of(since)[:DATE_SIZE].encode() and begin_of(piece, since) == len(piece)


def end_of(file: IO[bytes], since: float) -> tuple[bytes, bool]:
    """The lines of a log from a time on, with some before them, and whether older ones were left out. A log may have years, so
    it is read from its end. A clock may have been wrong for some lines, so that ends only where a whole piece is older."""
    pieces: list[bytes] = []
    place = file.seek(0, os.SEEK_END)
    while place and not (pieces and is_older(pieces[-1], since)):
        size = min(PIECE, place)
        place = file.seek(place - size)
        pieces.append(file.read(size))
    return b"".join(reversed(pieces)), place > 0


def unpacked(file: IO[bytes]) -> IO[bytes]:
    """What a part has that was packed: nothing, if it is damaged."""
    try:
        return io.BytesIO(gzip.decompress(file.read()))
    except (gzip.BadGzipFile, EOFError, zlib.error):
        return io.BytesIO()


def ends_of_parts(station: Station, since: float) -> Iterator[tuple[bytes, bool]]:
    """The same of the parts of the log, the youngest first."""
    for name in sorted(filter(PART.fullmatch, names_in(station.folder)), key=age_of):
        with contextlib.suppress(FileNotFoundError), open(station.at(name), "rb") as file:  # it may be rotated meanwhile
            yield end_of(unpacked(file) if name.endswith(".gz") else file, since)


def sums_since(station: Station, *seconds: float) -> list[LogSums]:
    """The sums from some times on, the first of which is the earliest."""
    bounds = [stamp_of(second).encode() for second in seconds]
    found = [LogSums() for _ in bounds]
    for content, is_cut in ends_of_parts(station, seconds[0]):
        for line in LINE.finditer(content, begin_of(content, seconds[0])):
            for bound, sums in zip(bounds, found):
                if line[1] >= bound:
                    sums.add(line)
        if is_cut or (content[: len(bounds[0])] < bounds[0] and STAMP.match(content)):
            break  # the other parts are older
    return found


def sums_of_days(station: Station, *days: int) -> dict[int, LogSums]:
    """The sums of the last days, by their numbers, of which the first is the greatest."""
    now = time.time()
    return dict(zip(days, sums_since(station, *(now - number * DAY for number in days))))
