"""The node lines of the station's own configuration of binkd."""
from __future__ import annotations

from os.path import lexists
from typing import Optional

from fidonet.addresses import Address, address_of

from .mailer import Mailer, lines_of, words_of
from .station import Station
from .whole_files import content_of, replace

NAME = "binkd.conf"
DOMAIN = "fidonet"
NONE = "-"


def address_in(words: list[str]) -> Optional[Address]:
    """The address of a node line."""
    is_node = len(words) > 1 and words[0] == "node"
    return address_of(words[1].split("@")[0], may_be_point=True) if is_node else None


class Nodes:
    """The node lines."""

    def __init__(self, station: Station) -> None:
        self.station = station
        self.path = station.at(NAME)
        self.is_there = lexists(self.path)
        self.mailer = Mailer(list(lines_of(self.path)) if self.is_there else [])

    def words(self, address: Address) -> Optional[list[str]]:
        """Host and password of the line of a system, with - for what it lacks: nothing, if there is no line."""
        for line in self.mailer.lines:
            if address_in(line) == address:
                words = [word for word in line[2:] if not word.startswith("-") or word == NONE]
                return [*words, NONE, NONE][:2]
        return None

    def has(self, address: Address) -> bool:
        """Whether a system has a line."""
        return self.words(address) is not None

    def fits(self, address: Address, host: str, password: str) -> bool:
        """Whether there is no line of a system, or one that says all this."""
        found = self.words(address)
        return found is None or (host in ("", found[0]) and password in ("", found[1]))

    def domain(self, address: Address) -> str:
        """The domain of a system: that of its zone."""
        found = [words[0] for words in self.mailer.all("domain") if len(words) > 2 and words[2] == str(address.zone)]
        return found[0] if found else DOMAIN

    def line(self, address: Address, host: str, password: str) -> str:
        """The line of a system."""
        return "node %s@%s %s %s" % (address, self.domain(address), host or NONE, password or NONE)

    def add(self, address: Address, host: str, password: str) -> None:
        """Adds the line at the end."""
        text = content_of(self.path)
        end = b"" if not text or text.endswith(b"\n") else b"\n"
        replace(self.station.disk, self.path, text + end + self.line(address, host, password).encode("ascii") + b"\n")

    def remove(self, address: Address) -> None:
        """Removes the lines of a system."""
        text = content_of(self.path)
        lines = text.split(b"\n")
        kept = [line for line in lines if address_in(words_of(line.decode("utf-8", "surrogateescape"))) != address]
        if len(kept) < len(lines):
            replace(self.station.disk, self.path, b"\n".join(kept))
