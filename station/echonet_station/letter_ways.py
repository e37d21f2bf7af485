"""Which letters of others this station passes on, and why not."""
from __future__ import annotations

import re
from typing import Optional

from fidonet.addresses import Address
from fidonet.letter_addresses import Route
from fidonet.stored import FILES
from fidonet.via import passed_by

from .aside import with_word
from .peers import Peer
from .station import Station

LOOP = "a loop: passed here before"
ATTACHED = "files and requests are not passed on"
TOO_LARGE = "too large to pass on"
MOST_BYTES = 1000000  # scans pack no larger letters
NO_ROUTE = "add a ROUTE line"
ROBOTS = {b"areafix", b"area_manager", b"areamgr", b"hpt", b"sbbsecho"}
OWN_NAME = r"\.%s(?:\.[0-9]+)?\.[^.]*\Z"


def is_robot(name: bytes) -> bool:
    """Whether a letter is for or from a program that changes areas."""
    return name.strip().lower() in ROBOTS


class LetterWays:
    """The ways of letters, by the file `peers`."""

    def __init__(self, station: Station) -> None:
        self.station = station
        self.peers = station.peers
        self.has_areafix = station.peers.has_areafix()

    def is_here(self, address: Address) -> bool:
        """Whether an address is this station, or one of its points."""
        return self.station.is_own(address) or address in self.peers.fake_of

    def peer_of(self, address: Address) -> Optional[Peer]:
        """What the line of a system says. A point of it counts as the system."""
        return self.peers.peers.get(address) or self.peers.peers.get(address.boss())

    def is_passed(self, route: Route) -> bool:
        """Whether neither end of a letter is here."""
        return not (self.is_here(route.to) or self.is_here(route.by))

    def next_system(self, to: Address) -> Optional[Address]:
        """The system of `links` or `peers` that gets a letter next. A point of a peer counts as its boss."""
        fake = self.peers.fake_of.get(to)
        if fake is not None:
            return fake
        for address in (to, to.boss()):
            if address in self.peers.peers:
                return address
        return self.peers.route

    def refusal(self, route: Route, attributes: int, text: bytes) -> Optional[str]:
        """Why a letter for another system is not passed on: a word that says what to do, or nothing to say. None, if it
        is passed on."""
        ends = [(end, self.peer_of(end)) for end in (route.to, route.by) if not self.is_here(end)]
        if not any(peer for _, peer in ends):
            return ""
        for end, peer in ends:
            if peer is not None and not peer.passes:
                return "add PASS to PEER %s" % end.boss()
        if not all(peer for _, peer in ends) and self.peers.route is None:
            return NO_ROUTE
        if attributes & FILES:
            return ATTACHED
        if len(text) > MOST_BYTES:
            return TOO_LARGE
        return LOOP if passed_by(text, self.station.real) else None


def aside_name(came: str, word: str = "letters") -> str:
    """The name in bad/ for some messages of a packet. That of such a packet stays as it is."""
    return came if re.search(OWN_NAME % word, came, re.I) else with_word(came, word)
