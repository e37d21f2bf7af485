"""The round of a repair that is open: the folder repair/.

The file `round` has a line NUMBER LINK TAG for each question. NUMBER.list is the list that goes with it. NUMBER.asked
says that the question was given to the scan. NUMBER.answer has the counts of the answer. A toss adds those of its
packet to NUMBER.came, or to NUMBER.aside if it puts it aside. The round begins when `round` gets its name, and ends when that goes."""
from __future__ import annotations

import os
import re
import time
from dataclasses import dataclass
from os.path import join, lexists
from typing import Optional

from fidonet.addresses import Address, address_of

from .lists import ids_in, name_to, own_list, send_list
from .station import Station, names_in

FOLDER = "repair"
FILED = re.compile(rb"^filed ([0-9]+) ", re.M)


@dataclass(frozen=True)
class Answer:
    """What an answer said: how many messages come with it, how many were sent to the link, and how many of those the
    link lacked."""

    messages: int
    sent: int
    lacking: int


@dataclass(frozen=True)
class Pair:
    """A question: a link, and an area."""

    station: Station
    number: str
    link: Address
    tag: str

    def __str__(self) -> str:
        return "%s %s" % (self.link, self.tag)

    @property
    def name(self) -> str:
        """What people are told: the address of the link on the net, and the area."""
        return "%s %s" % (self.station.peers.net_address(self.link), self.tag)

    def path(self, ending: str) -> str:
        """A file of the question."""
        return self.station.at(FOLDER, "%s.%s" % (self.number, ending))

    @property
    def packet(self) -> str:
        """The name of what is sent to the link. Each question of a link has another, and a repeated run the same."""
        return "r%s.pkt" % self.number

    @property
    def list_path(self) -> str:
        """The list of the time when the round began."""
        return self.path("list")

    def ids(self) -> set[bytes]:
        """The ids of this list."""
        with open(self.list_path, "rb") as file:
            return ids_in(file.read())

    def ask(self) -> None:
        """Gives the question to the scan, once. After a stop it may go twice."""
        if lexists(self.path("asked")):
            return
        with open(self.list_path, "rb") as file:
            send_list(self.station, self.link, name_to(self.station, self.link, self.number), file.read())
        self.station.disk.write(self.path("asked"), b"")
        self.station.disk.sync(self.station.at(FOLDER))
        self.station.note("asked %s" % self.name)

    def note_answer(self, messages: int, sent: int, lacking: int) -> None:
        """Keeps the counts of an answer."""
        disk, path = self.station.disk, self.path("answer")
        disk.write(path + ".new", b"%d %d %d\n" % (messages, sent, lacking))
        disk.rename(path + ".new", path)
        disk.sync(self.station.at(FOLDER))

    @property
    def answer(self) -> Optional[Answer]:
        """The counts of the answer, if it came."""
        if not lexists(self.path("answer")):
            return None
        with open(self.path("answer"), encoding="ascii") as file:
            return Answer(*map(int, file.read().split()))

    def has_come(self) -> bool:
        """Whether its packet was tossed whole."""
        return lexists(self.path("came"))

    @property
    def filed(self) -> int:
        """How many messages of its packet were filed, also if it was put aside."""
        count = 0
        for path in filter(lexists, (self.path("came"), self.path("aside"))):
            with open(path, "rb") as file:
                count += sum(map(int, FILED.findall(file.read())))
        return count

    def is_in_bad(self) -> bool:
        """Whether the packet was put aside."""
        return any(name.startswith(self.number + ".") for name in names_in(self.station.at("bad")))


class Round:
    """The open round. Without one there are no pairs."""

    def __init__(self, station: Station) -> None:
        self.station = station
        self.path = station.at(FOLDER, "round")
        self.pairs: list[Pair] = []
        if lexists(self.path):
            with open(self.path, encoding="latin-1") as file:
                lines = file.read().split("\n")[:-1]
            for number, link, tag in (line.split(" ", 2) for line in lines):
                address = address_of(link)
                assert address
                self.pairs.append(Pair(station, number, address, tag))

    def begin(self, wanted: dict[str, list[Address]]) -> None:
        """Begins a round with these links of areas."""
        disk, folder = self.station.disk, self.station.at(FOLDER)
        disk.make_folder(folder)
        for name in names_in(folder):
            disk.unlink(join(folder, name))
        for tag, links in wanted.items():
            text = own_list(self.station, tag)
            for link in links:
                pair = Pair(self.station, os.urandom(4).hex(), link, tag)
                disk.write(pair.list_path, text)
                self.pairs.append(pair)
        lines = "".join("%s %s\n" % (pair.number, pair) for pair in self.pairs)
        disk.write(self.path + ".new", lines.encode("latin-1"))
        disk.sync(folder)
        disk.rename(self.path + ".new", self.path)
        disk.sync(folder)

    def end(self) -> None:
        """Ends the round."""
        self.station.disk.unlink(self.path)
        self.station.disk.sync(self.station.at(FOLDER))
        self.pairs = []

    def has_all(self) -> bool:
        """Whether all links of all areas are in it."""
        wanted = {(tag, link) for tag, links in self.station.areas.items() for link in links}
        return {(pair.tag, pair.link) for pair in self.pairs} == wanted

    def age(self) -> float:
        """How many seconds ago it began."""
        return time.time() - os.stat(self.path).st_mtime

    def is_unsure(self) -> bool:
        """Whether a toss was stopped, so that its counts may be too small."""
        return lexists(self.station.at(FOLDER, "unsure"))

    def lost_bases(self) -> list[str]:
        """The areas of which the base lacks messages that it had when the round began."""
        first = {pair.tag: pair for pair in self.pairs}
        return [tag for tag, pair in first.items() if not pair.ids() <= ids_in(own_list(self.station, tag))]
