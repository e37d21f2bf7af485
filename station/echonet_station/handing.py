"""Hands packets and lists over to the mailer: each gets a name in packets/, and a line in the flow file of its link."""
from __future__ import annotations

import os
import re
import time
from functools import partial
from os.path import dirname, exists, getsize, join, lexists
from typing import Callable

from fidonet.addresses import Address

from .faults import Status
from .holds import Held, Holds
from .running import say_fault
from .station import Station, names_in
from .whole_files import content_of

SCANNED = re.compile(r"([0-9]+)\.([0-9]+)\.([0-9]+)\.(.*)", re.S)
ENDINGS = (".pkt", ".ask", ".ids")
KEEPS_NAME = "as-"
FLOW, HELD = ".flo", ".hlo"
SENT = b"~"
MOST_NAMES = 1 << 32
POLYNOMIAL = 0x04C11DB7


def sum_of(text: str) -> int:
    """The sum that `cksum` prints."""
    content, size, crc = bytearray(text.encode("latin-1")), len(text), 0
    while size:
        content.append(size & 255)
        size >>= 8
    for byte in content:
        crc ^= byte << 24
        for _ in range(8):
            crc = (crc << 1 ^ (POLYNOMIAL if crc >> 31 else 0)) & 0xFFFFFFFF
    return crc ^ 0xFFFFFFFF


def files_in(station: Station) -> list[str]:
    """The names of what waits in scanned/: packets, then lists."""
    names = [name for name in names_in(station.at("scanned")) if not name.startswith(".")]
    return [name for ending in ENDINGS for name in names if name.endswith(ending)]


class Handing:
    """Hands over what waits in scanned/."""

    def __init__(self, station: Station) -> None:
        self.station = station
        self.disk = station.disk
        self.holds = Holds(station.disk, station.own_word)
        mask = os.umask(0)
        os.umask(mask)
        self.mode = 0o666 & ~mask  # the umask says who may read a packet

    def end_left(self) -> None:
        """Finishes what a stopped run began. After a power cut a packet can have its new name and its old one: then it was
        handed over. Both folders are on the disk before a link is freed."""
        there = {(it.st_dev, it.st_ino) for it in map(os.lstat, self.paths_of_packets())}
        for name in files_in(self.station):
            path = self.station.at("scanned", name)
            about = os.lstat(path)
            if (about.st_dev, about.st_ino) in there:
                self.disk.unlink(path)
        self.disk.sync(self.station.packets)
        self.disk.sync(self.station.at("scanned"))
        self.holds.free_left(self.station.outbound)

    def paths_of_packets(self) -> list[str]:
        """What is in packets/, if anything waits that may be there too."""
        return [join(self.station.packets, name) for name in names_in(self.station.packets)] if files_in(self.station) else []

    def run(self) -> int:
        """Hands all over. What fails stays for the next run."""
        status = 0
        held = [link for link, peer in sorted(self.station.peers.peers.items()) if peer.holds]
        works: list[tuple[Callable[[], None], str]] = [(partial(self.keep_for, link), str(link)) for link in held]
        works += [(partial(self.hand_over, name), name) for name in files_in(self.station)]
        for work, name in works:
            try:
                work()
            except OSError as fault:
                say_fault("cannot use %s: %s" % (fault.filename or name, fault.strerror))
                status = Status.FAILED
        return status

    def hand_over(self, name: str) -> None:
        """Hands one over. If another process holds the link, it waits for the next run."""
        found = SCANNED.fullmatch(name)
        if not found:
            raise OSError(0, "no name of a link", self.station.at("scanned", name))
        link = Address(int(found[1]), int(found[2]), int(found[3]))
        flow = self.station.flow(link)
        self.disk.make_folder(dirname(flow))
        try:
            self.holds.hold(flow)
        except Held:
            return
        try:
            self.move(name, found[4], link, flow + (HELD if self.station.peers.peer(link).holds else FLOW))
        finally:
            self.holds.free(flow)

    def keep_for(self, link: Address) -> None:
        """Moves what waits for a link to the flow file of links that are not called. What stops this leaves a line in both:
        a mailer sends a packet once."""
        flow = self.station.flow(link)
        if not exists(flow + FLOW):
            return
        try:
            self.holds.hold(flow)
        except Held:
            return
        try:
            for line in content_of(flow + FLOW).split(b"\n"):
                if line and not line.startswith(SENT):
                    self.add_line(flow + HELD, os.fsdecode(line))
            self.disk.unlink(flow + FLOW)
            self.disk.sync(dirname(flow))
        finally:
            self.holds.free(flow)

    def move(self, name: str, rest: str, link: Address, flow: str) -> None:
        """Moves a file, after its line was written: whatever stops this, it is handed over by a later run or has its new
        name. The disk has that name, and no longer the old one, before the link is freed. Else a packet that the mailer
        sent could be there again after a power cut."""
        path = self.station.at("scanned", name)
        said = self.size_line(name, path)
        new = join(self.station.packets, self.name_for(rest, flow))
        self.disk.set_mode(path, self.mode)
        self.add_line(flow, "^" + new)
        self.disk.rename(path, new)
        self.disk.sync(self.station.packets)
        self.disk.sync(dirname(path))
        real = self.station.peers.real_of.get(link, link)
        self.station.log("sent %s to %s %s" % (os.path.basename(new), real, said))

    def size_line(self, name: str, path: str) -> str:
        """How many messages a packet has, as its scan said or else by its bytes, and how large it is."""
        size = "%d bytes" % getsize(path)
        if not name.endswith(".pkt"):
            return size
        count = self.station.stated.get(name)
        if count is None:
            from fidonet.packets import Packet

            with Packet(path) as packet:
                count = packet.count()
        return "%d messages %s" % (count, size)

    def name_for(self, rest: str, flow: str) -> str:
        """The name that a file gets for the mailer. A packet keeps its name only if no packet of another link has it, since
        the link that asked for it chose the name."""
        if not rest.startswith(KEEPS_NAME):
            return self.new_name()
        kept = rest[len(KEEPS_NAME) :]
        place = join(self.station.packets, kept)
        if kept.endswith(".pkt") and exists(place) and "^" + place not in lines_of(flow):
            return self.new_name()
        return kept

    def new_name(self) -> str:
        """A name that no packet of this station had before, in eight hexadecimal digits: the second, or the next one, plus a
        number of the own address. Without that number two systems would give packets of one second the same name. A mailer
        that has a packet with the same name, size and second does not accept another. The last second is in a file that is
        replaced at once, so a stop does not lose it."""
        number = max(int(time.time()), self.last_name() + 1)
        own = sum_of(self.station.own_word)
        while lexists(join(self.station.packets, "%08x.pkt" % ((number + own) % MOST_NAMES))):
            number += 1
        path = self.station.at("last-name")
        self.disk.write(path + ".new", b"%d\n" % number)
        self.disk.rename(path + ".new", path)
        self.disk.sync(self.station.folder)
        return "%08x.pkt" % ((number + own) % MOST_NAMES)

    def last_name(self) -> int:
        """The second of the last name."""
        try:
            with open(self.station.at("last-name"), "rb") as file:
                return int(file.read() or b"0")
        except (FileNotFoundError, ValueError):
            return 0

    def add_line(self, flow: str, line: str) -> None:
        """Adds a line to a flow file, unless a stopped run added it. The file is replaced whole, and is on the disk then."""
        content = content_of(flow)
        if os.fsencode(line) in content.split(b"\n"):
            return
        if content and not content.endswith(b"\n"):
            content += b"\n"
        try:
            self.disk.write(flow + ".new", content + os.fsencode(line) + b"\n")
            self.disk.rename(flow + ".new", flow)
        except OSError:
            self.disk.unlink(flow + ".new")
            raise
        self.disk.sync(dirname(flow))


def lines_of(path: str) -> set[str]:
    """The lines of a file."""
    return {os.fsdecode(line) for line in content_of(path).split(b"\n")}
