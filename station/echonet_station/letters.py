"""Packs the letters that were written here, and those that pass through: each goes into one packet, once."""
from __future__ import annotations

import os
import struct
import time
import zlib
from dataclasses import dataclass, field
from hashlib import sha256
from os.path import exists, isfile
from typing import Optional

from fidonet.addresses import Address
from fidonet.letter_addresses import FROM_POINT, HAS_INTL, TO_POINT, Route, stated_route, with_points
from fidonet.packets import END, new_header, packed
from fidonet.stored import ATTRIBUTES_AT, CRASH, FIELDS, FILES, IN_TRANSIT, LOCAL, NAME, SENT, Stored

from .faults import Status
from .filing import KEPT_ATTRIBUTES, Filing
from .letter_ways import LetterWays
from .new_letters import KILL_SENT
from .station import Station, names_in

MOST_BYTES = 1 << 20
WRITING = 2  # seconds in which an editor may be writing a file


class Letter(Stored):
    """A letter of netmail/."""

    def part(self, name: str) -> bytes:
        """A name, the subject or the date, with room for its 00."""
        return self.field(name)[: FIELDS[name][1] - 1]

    def digest(self) -> str:
        """Tells a letter from one that was changed since."""
        return "%08x" % zlib.crc32(self.content)


@dataclass
class Plan:
    """What a run began: the packets, the letters in them with their digests, and which of them leave netmail/ then."""

    packets: list[str] = field(default_factory=list)
    letters: list[tuple[str, str]] = field(default_factory=list)
    leaving: list[tuple[str, str]] = field(default_factory=list)  # those that leave netmail/ once they are sent


class Letters:
    """One run of `letters`."""

    def __init__(self, station: Station) -> None:
        self.station = station
        self.disk = station.disk
        self.folder = station.at("letters")
        self.plan = station.at("letters", "plan")
        self.ways = LetterWays(station)
        self.leaving: set[str] = set()
        self.groups: dict[Address, list[tuple[Letter, bytes]]] = {}

    def run(self) -> Status:
        """Finishes what a stopped run began, then packs what is new."""
        for folder in (self.folder, self.station.at("scanned"), self.station.at("netmail")):
            self.disk.make_folder(folder)
        if exists(self.plan):
            self.finish(self.read_plan())
        for name in names_in(self.folder):
            self.disk.unlink(self.station.at("letters", name))
        for name in sorted(filter(NAME.fullmatch, names_in(self.station.at("netmail"))), key=number_in):
            self.sort(name)
        if self.groups:
            self.finish(self.write_plan(self.write_packets()))
        return self.station.ending(has_failed=False)

    def keep(self, name: str, why: str) -> None:
        """Says that a letter stays."""
        self.station.warn("keeps %s%s" % (name, why))
        self.station.has_put_aside = True

    def sort(self, name: str) -> None:
        """Finds the way of a letter that is to go."""
        letter = self.read(name)
        if letter is None:
            return
        attributes = letter.attributes()
        if attributes & SENT or not attributes & (LOCAL | IN_TRANSIT):
            return
        if len(letter.content) > MOST_BYTES:
            self.keep(name, ": over %d bytes" % MOST_BYTES)
            return
        if not letter.has_end():
            return
        if attributes & FILES:
            self.keep(name, ": files and requests are not sent")
            return
        route = self.route(letter)
        if self.station.is_own(route.to):
            return
        way = self.ways.next_system(route.to)
        if way is None:
            self.keep(name, " for %s: peers has no ROUTE" % route.to)
            return
        is_passed = not attributes & LOCAL and self.ways.is_passed(route)
        if is_passed or attributes & KILL_SENT:
            self.leaving.add(name)
        self.groups.setdefault(way, []).append((letter, self.packed(letter, route)))

    def read(self, name: str) -> Optional[Letter]:
        """A file of netmail/, unless it is gone or an editor may be writing it."""
        path = self.station.at("netmail", name)
        try:
            if not isfile(path):
                return None
            with open(path, "rb") as file:
                letter = Letter(name, file.read(MOST_BYTES + 1))
                age = time.time() - os.fstat(file.fileno()).st_mtime
        except FileNotFoundError:
            return None
        return None if letter.attributes() & LOCAL and 0 <= age < WRITING else letter

    def route(self, letter: Letter) -> Route:
        """From whom a letter is, and to whom. Local ones are of this station."""
        node, by_node, _, by_net, net, zone, by_zone, point, by_point = letter.numbers()
        own = self.station.real
        unstated = Route(Address(zone or own.zone, net, node), Address(by_zone or own.zone, by_net, by_node))
        text = letter.text()
        route = with_points(stated_route(text) or unstated, text)
        to = route.to.with_point(route.to.point or point)
        if letter.attributes() & LOCAL:
            return Route(to, own.with_point(route.by.point or by_point or own.point))
        return Route(to, route.by.with_point(route.by.point or by_point))

    def packed(self, letter: Letter, route: Route) -> bytes:
        """The letter as a message of a packet, with the lines that say its way."""
        to, by, text = route.to, route.by, letter.text()
        lines = b""
        if not HAS_INTL.search(text):
            lines += b"\1INTL %s %s\r" % (str(to.boss()).encode(), str(by.boss()).encode())
        if to.point and not TO_POINT.search(text):
            lines += b"\1TOPT %d\r" % to.point
        if by.point and not FROM_POINT.search(text):
            lines += b"\1FMPT %d\r" % by.point
        if text and not text.endswith((b"\r", b"\r\n")):
            text += b"\r"
        stamp = time.strftime("%Y%m%d.%H%M%S", time.gmtime())
        via = ("\1Via %s @%s.UTC echonet\r" % (self.station.real, stamp)).encode()
        attributes = letter.attributes() & (KEPT_ATTRIBUTES | CRASH)
        numbers = (by.node, to.node, by.net, to.net, attributes, 0)
        names = map(letter.part, ("to", "from", "subject"))
        return packed(numbers, letter.part("date"), names, lines + text + via)

    def write_packets(self) -> Plan:
        """Writes a packet for each system, into letters/."""
        plan, now = Plan(), time.time_ns() // 1000000
        for number, (way, letters) in enumerate(sorted(self.groups.items())):
            name = "%d.%d.%d.m%d.pkt" % (way.zone, way.net, way.node, now + number)
            packet = new_header(self.station.own, way, time.gmtime()) + b"".join(message for _, message in letters) + END
            self.disk.write(self.station.at("letters", name), packet)
            plan.packets.append(name)
            plan.letters += [(letter.name, letter.digest()) for letter, _ in letters]
        plan.leaving = [(name, digest) for name, digest in plan.letters if name in self.leaving]
        self.disk.sync(self.folder)
        return plan

    def write_plan(self, plan: Plan) -> Plan:
        """Notes what is about to be marked and sent."""
        import json
        from dataclasses import asdict

        self.disk.write(self.plan + ".new", json.dumps(asdict(plan)).encode())
        self.disk.rename(self.plan + ".new", self.plan)
        self.disk.sync(self.folder)
        return plan

    def read_plan(self) -> Plan:
        """The plan of a stopped run."""
        import json

        with open(self.plan, "rb") as file:
            return Plan(**json.load(file))

    def finish(self, plan: Plan) -> None:
        """Marks the letters, and then names the packets: from then on they are sent. A repeated run marks only while no
        packet has its name."""
        waiting = [name for name in plan.packets if exists(self.station.at("letters", name))]
        if len(waiting) == len(plan.packets):
            for name, digest in plan.letters:
                self.mark(name, digest)
            self.disk.sync(self.station.at("netmail"))
        for name in waiting:
            self.disk.rename(self.station.at("letters", name), self.station.at("scanned", name))
            self.disk.sync(self.station.at("scanned"))
            self.disk.sync(self.folder)
            self.station.say("letters in %s" % name)
        for name, digest in plan.leaving:
            self.remove(name, digest)
        self.disk.unlink(self.plan)
        self.disk.sync(self.folder)

    def mark(self, name: str, digest: str) -> None:
        """Marks a letter as sent, unless it was changed since."""
        path = self.station.at("netmail", name)
        try:
            with open(path, "rb") as file:
                letter = Letter(name, file.read(MOST_BYTES + 1))
        except FileNotFoundError:
            return
        if letter.digest() == digest:
            self.disk.put(path, ATTRIBUTES_AT, struct.pack("<H", letter.attributes() | SENT))


    def remove(self, name: str, digest: str) -> None:
        """Removes a letter that was sent, unless it was changed since. That it came is noted before: a gate that was stopped
        would file it again."""
        path = self.station.at("netmail", name)
        try:
            with open(path, "rb") as file:
                content = bytearray(file.read(MOST_BYTES + 1))
        except FileNotFoundError:
            return
        struct.pack_into("<H", content, ATTRIBUTES_AT, Letter(name, bytes(content)).attributes() & ~SENT)
        if Letter(name, bytes(content)).digest() == digest:
            Filing(self.station).remember(sha256(content).hexdigest().encode())
            self.disk.unlink(path)
            self.disk.sync(self.station.at("netmail"))


def number_in(name: str) -> int:
    """The number of a stored message."""
    return int(name.split(".")[0])


def letters(station: Station, _: list[str]) -> Status:
    """The command `letters`."""
    station.lock("scan.lock")
    return pack_letters(station)


def pack_letters(station: Station) -> Status:
    """Packs the letters that wait. The caller has the lock."""
    station.load()
    return Letters(station).run()
