"""Scans: makes the packets of the messages that wait, and hands them to the mailer.

`echonet scan` writes into scanned/. A file *.pkt there belongs to a scan that moved the cursor, and the next scan finishes a
stopped one. A name `zone.net.node.as-NAME` there says that a file keeps its NAME."""
from __future__ import annotations

import contextlib
import re
from os.path import getsize, lexists
from typing import Optional

from fidonet.addresses import Address, address_of

from .calls import call, program
from .counts import note_count
from .faults import Status, Stopped
from .handing import Handing, files_in
from .running import say_fault, status_of
from .station import Station, names_in
from .toss import is_peered

LISTS = (".ask", ".ids")
LETTER = re.compile(r"(?!\.).*\.msg", re.I | re.S)
PACKET_LINE = re.compile(r"packet (\S+) ([0-9]+) messages ([0-9]+) bytes")


class Scan:
    """One run of a scan."""

    def __init__(self, station: Station) -> None:
        self.station = station
        self.own = self.own_address()
        self.handing = Handing(station)
        self.has_count = True

    def own_address(self) -> Optional[Address]:
        """The own address: nothing, if the link file cannot be read or does not have exactly one."""
        own: Optional[Address] = None
        with contextlib.suppress(Stopped, OSError):
            own = self.station.read_links()
            if own is not None:
                self.station.own = own
                self.station.load_peers()  # its faults are those of `dress`
        return own

    def run(self) -> int:
        """Scans, answers lists, packs letters, and hands over. What failed first says the status."""
        self.handing.end_left()
        unmended = self.mend_pauses()
        if unmended:
            return unmended
        status = self.scan()
        try:
            note_count(self.station)
        except OSError:
            self.has_count = False
        self.station.disk.sync(self.station.folder)
        if self.own is not None and any(name.endswith(LISTS) for name in names_in(self.station.inbound)):
            answered = self.answer()
            status = status or answered
        if is_peered(self.station) and self.own is not None:
            if has_letters(self.station):
                packed = self.pack_letters()
                status = status or packed
            undressed = self.dress()
            if undressed:
                return undressed
        status = self.hand_over(status)
        return status or (Status.GOOD if self.station.has_log and self.has_count else Status.FAILED)

    def mend_pauses(self) -> int:
        """Ends a pause that was stopped halfway. Without one nothing is imported."""
        if self.own is None or not lexists(self.station.at("paused")):
            return Status.GOOD
        from .pausing import mend

        return status_of(lambda: mend(self.station))

    def scan(self) -> int:
        """Calls `echonet scan`, and notes what it says of its packets."""
        before = set(files_in(self.station))
        words = ("scan", "--explain", "--at", "now", self.station.at("links"), self.station.at("base"), self.station.at("scanned"))
        ran = call(program(), *words, passes_faults=True)
        for line in ran.output.split("\n")[:-1]:
            self.station.say(line)
        self.state(ran.output, [name for name in files_in(self.station) if name not in before])
        return ran.status if ran.status <= Status.COMMAND else Status.FAILED

    def state(self, output: str, names: list[str]) -> None:
        """Notes how many messages the new packets have: that of the link and of the size that a line names."""
        for link, count, size in PACKET_LINE.findall(output):
            address = address_of(link)
            start = "%d.%d.%d." % (address.zone, address.net, address.node) if address else "-"
            fits = [it for it in names if it.startswith(start) and getsize(self.station.at("scanned", it)) == int(size)]
            if len(fits) == 1:
                self.station.stated[fits[0]] = int(count)

    def answer(self) -> int:
        """Answers the lists of links."""
        from .answer import answer_lists

        return status_of(lambda: answer_lists(self.station))

    def pack_letters(self) -> int:
        """Gives letters packets of their own."""
        from .letters import pack_letters

        return status_of(lambda: pack_letters(self.station))

    def dress(self) -> int:
        """Writes passwords and points. If that fails, nothing is handed over: a link would refuse it."""
        from .dress import dress_all

        if not files_in(self.station):
            return Status.GOOD
        return status_of(lambda: dress_all(self.station))

    def hand_over(self, status: int) -> int:
        """Hands all over, if there is an own address."""
        if self.own is not None:
            return self.handing.run() or status
        if files_in(self.station):
            say_fault("no own address in %s: nothing is handed over" % self.station.at("links"))
            return status or Status.REFUSED
        return status


def has_letters(station: Station) -> bool:
    """Whether there are stored messages, or letters that a stopped run packed. Most runs have none, and import nothing."""
    return lexists(station.at("letters", "plan")) or any(map(LETTER.fullmatch, names_in(station.at("netmail"))))


def scan(station: Station, _: list[str]) -> int:
    """The command `scan`."""
    station.is_run = True
    for folder in (station.at("scanned"), station.packets, station.outbound):
        station.disk.make_folder(folder)
    station.lock("scan.lock")
    try:
        return Scan(station).run()
    finally:
        station.unlock()
