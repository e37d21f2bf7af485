"""Files letters that came: each as a stored message netmail/N.msg, once."""
from __future__ import annotations

import os
from os.path import exists, join
from typing import Iterator, Optional

from fidonet.letter_addresses import Route
from fidonet.messages import Message
from fidonet.packets import Packet
from fidonet.stored import FORM, IN_TRANSIT
from fidonet.stored import NAME as STORED_NAME

from .station import Station

# Private, file, receipts and audit: the attributes that a sender may set.
KEPT_ATTRIBUTES = 0x7011
FIRST_NUMBER = 2  # other tossers keep a number in 1.msg


def stored(message: Message, packet: Packet, route: Route, is_here: bool) -> bytes:
    """The letter as a stored message. Its text is unchanged."""
    attributes = message.numbers(packet)[4] & KEPT_ATTRIBUTES
    if not is_here:
        attributes |= IN_TRANSIT
    to, by = route.to, route.by
    to_name, by_name, subject = (message.name_of(packet, number) for number in range(3))
    places = (0, to.node, by.node, 0, by.net, to.net, to.zone, by.zone, to.point, by.point, 0)
    head = FORM.pack(by_name, to_name, subject, message.date_of(packet), *places, attributes, 0)
    return head + message.text_of(packet) + b"\0"


class Filing:
    """The folder netmail/, and the digests of what was filed."""

    def __init__(self, station: Station) -> None:
        self.station = station
        self.disk = station.disk
        self.folder = station.at("netmail")
        self.known: Optional[set[bytes]] = None
        self.number = FIRST_NUMBER - 1

    def begin(self) -> set[bytes]:
        """Reads what is known, at the first letter of a run."""
        if self.known is None:
            self.disk.make_folder(self.folder)
            path = self.station.at("netmail.known")
            self.known = set()
            if exists(path):
                with open(path, "rb") as file:
                    self.known = set(file.read().split(b"\n"))
            numbers = (STORED_NAME.fullmatch(name) for name in os.listdir(self.folder))
            self.number = max([FIRST_NUMBER - 1] + [int(found[1]) for found in numbers if found])
        return self.known

    def file(self, mark: str, packet: Packet, message: Message, route: Route) -> None:
        """Files a letter. The file `mark` gets a second name in netmail/, so a repeated run sees that it was filed."""
        from hashlib import sha256

        self.begin()
        content = stored(message, packet, route, self.station.is_own(route.to))
        digest = sha256(content).hexdigest().encode()
        if exists(mark) and not has_content(mark, content):
            self.disk.unlink(mark)  # of an earlier packet that had this number
        if exists(mark) and os.stat(mark).st_nlink > 1:
            self.remember(digest)
            return
        if exists(mark):
            self.known = None  # a letter that was passed on since has left netmail/, and was noted before
        if digest in self.begin():
            self.station.log("known letter from %s" % route.by)
            return
        if not exists(mark):
            self.disk.write(mark + ".new", content)
            self.disk.rename(mark + ".new", mark)
        self.disk.sync(self.station.at("gate"))
        name = self.name_it(mark)
        self.remember(digest)
        self.station.note("letter %s from %s to %s" % (name, route.by, route.to))

    def name_it(self, mark: str) -> str:
        """Gives a letter the next number that no file has."""
        for self.number in self.numbers():
            name = "%d.msg" % self.number
            try:
                self.disk.link(mark, join(self.folder, name))
                break
            except FileExistsError:
                continue
        self.disk.sync(self.folder)
        return name

    def numbers(self) -> Iterator[int]:
        """The numbers after the last one."""
        number = self.number
        while True:
            number += 1
            yield number

    def remember(self, digest: bytes) -> None:
        """Notes that a letter was filed."""
        known, path = self.begin(), self.station.at("netmail.known")
        if digest not in known:
            is_new = not exists(path)
            self.disk.append(path, digest + b"\n")
            if is_new:
                self.disk.sync(self.station.folder)
            known.add(digest)


def has_content(path: str, content: bytes) -> bool:
    """Whether a file has just these bytes."""
    with open(path, "rb") as file:
        return file.read(len(content) + 1) == content
