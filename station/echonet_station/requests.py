"""The letters to AreaFix that came, in the folder areafix/: each with the system whose packet brought it."""
from __future__ import annotations

import re
from dataclasses import dataclass
from os.path import join, lexists
from typing import Optional

from fidonet.addresses import Address, address_of
from fidonet.letter_addresses import Route, stated_route, with_points
from fidonet.messages import Message
from fidonet.packets import Packet
from fidonet.stored import Stored

from .filing import stored
from .station import Station, names_in

FOLDER = "areafix"
NAME = re.compile(r"([0-9]{8})\.request")


@dataclass(frozen=True)
class Request:
    """A letter, its two ends, and the sender of its packet."""

    letter: Stored
    route: Route
    sender: Optional[Address]
    content: bytes

    def digest(self) -> bytes:
        """Tells it from all others."""
        from hashlib import sha256

        return sha256(self.content).hexdigest().encode()


def request_of(content: bytes) -> Request:
    """A file of the folder."""
    sender, _, message = content.partition(b"\n")
    letter = Stored("", message)
    node, by_node, _, by_net, net, zone, by_zone, point, by_point = letter.numbers()
    plain = Route(Address(zone, net, node, point), Address(by_zone, by_net, by_node, by_point))
    text = letter.text()
    return Request(letter, with_points(stated_route(text) or plain, text), address_of(sender.decode("latin-1"), True), content)


def paths_of(station: Station) -> list[str]:
    """The files, in the order in which they came."""
    folder = station.at(FOLDER)
    return [join(folder, name) for name in names_in(folder) if NAME.fullmatch(name)]


def keep_request(station: Station, packet: Packet, message: Message, route: Route, sender: str) -> None:
    """Keeps a letter for the end of the toss. One that is kept twice is worked off once."""
    disk, folder = station.disk, station.at(FOLDER)
    disk.make_folder(folder)
    new = station.at("gate", "request.new")
    disk.write(new, sender.encode() + b"\n" + stored(message, packet, route, is_here=True))
    number = max((int(found[1]) for found in map(NAME.fullmatch, names_in(folder)) if found), default=0) + 1
    path = join(folder, "%08d.request" % number)
    assert not lexists(path)
    disk.rename(new, path)
    disk.sync(folder)
