"""What was done in the last hours: a file of the station with lines SECONDS NAME."""
from __future__ import annotations

import re
import time

from .station import Station
from .whole_files import content_of, replace

LINE = re.compile(r"([0-9]{1,12}) (.+)")


class Recent:
    """The lines of a file that are younger than some seconds."""

    def __init__(self, station: Station, name: str, seconds: int) -> None:
        self.station, self.path = station, station.at(name)
        now = time.time()
        found = filter(None, map(LINE.fullmatch, content_of(self.path).decode("latin-1").split("\n")))
        lines = [(int(line[1]), line[2]) for line in found]
        # Those of a clock that was ahead do not count for ever.
        self.lines = [(second, name) for second, name in lines if now - seconds < second <= now + 60]

    def count(self, name: str) -> int:
        """How often something was done."""
        return sum(other == name for _, other in self.lines)

    def add(self, name: str, second: float) -> None:
        """Notes that it is done."""
        self.lines.append((int(second), name))
        lines = "".join("%d %s\n" % line for line in self.lines)
        replace(self.station.disk, self.path, lines.encode("latin-1"))
