"""What the readers of an area share: calls of the program, and the new messages of the base."""
from __future__ import annotations

import re
import sys
from os.path import exists, lexists
from typing import Callable, Optional

from .calls import Called, call, program
from .faults import Status, Stopped
from .list_lines import PURGED, lines_of
from .station import Station

EXPORTED = re.compile(r"^exported ([0-9]+) messages, next ([0-9]+)$", re.M)
EMPTY_NOTE = "echonet: note: no message of area "


class Reader:
    """An area that a reader reads and writes, in a folder or in a JAM base at `path`."""

    form = ""

    def __init__(self, station: Station, area: str, path: str, say: Callable[[str], None], tag: str = "") -> None:
        self.station = station
        self.disk = station.disk
        self.area, self.path = area, path
        self.say = say
        self.tag = tag  # what is printed before a line of its own
        self.has_purged = False

    def next_path(self) -> str:
        """The file with the number of the message with which the next run begins."""
        raise NotImplementedError

    def call(self, *words: str) -> Called:
        """Calls the program. Its standard error is passed on, except for the note that the area is still empty."""
        ran = call(program(), *words)
        for line in ran.faults.split("\n"):
            if line and not line.startswith(EMPTY_NOTE):
                print(line, file=sys.stderr, flush=True)
        return ran

    def next_number(self) -> int:
        """That number."""
        if not exists(self.next_path()):
            return 0
        with open(self.next_path(), encoding="latin-1") as file:
            word = file.read().strip()
        return int(word) if word.isdecimal() else 0

    def add_new(self) -> None:
        """Adds the new messages of the base."""
        base = self.station.at("base")
        if not lexists(base):
            return
        first = self.next_number()
        ran = self.call("export", "--explain", self.form, self.path, "--area", self.area, "--from", str(first), base)
        found = EXPORTED.search(ran.output)
        if ran.status or not found:
            raise Ended(ran.status if 0 < ran.status <= Status.COMMAND else Status.FAILED)
        following = int(found[2])
        purged = self.purged_between(first, following) if following - first > int(found[1]) else 0
        self.disk.write(self.next_path() + ".new", b"%d\n" % following)
        self.disk.rename(self.next_path() + ".new", self.next_path())
        for line in ran.output.split("\n")[:-1]:
            self.say(line)
        if purged:
            self.say("%s%d messages were purged unread" % (self.tag, purged))
            self.has_purged = True

    def purged_between(self, first: int, following: int) -> int:
        """How many messages of the area that would have been added are purged."""
        lines = lines_of(self.station, first, self.area)
        return sum(line.state == PURGED and line.number < following for line in lines)

    def run(self) -> int:
        """Posts what was written there, and adds what is new."""
        raise NotImplementedError

    def status(self, other: Optional[int] = None) -> int:
        """The status of a run that ended well, or with this one."""
        return other or (Status.HAND if self.has_purged else Status.GOOD)


class Ended(Stopped):
    """Ends the reading of an area with a status. What is wrong was said."""

    def __init__(self, status: int) -> None:
        super().__init__(Status(status), "")
