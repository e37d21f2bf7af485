"""Works off letters to AreaFix: each once, with one answer at most. The caller has the lock of tosses.

What a letter wants is done, then its digest is noted, then it is answered. A run that is stopped before does it again."""
from __future__ import annotations

import time
from typing import Optional

from fidonet.addresses import GREATEST, Address

from .areas import Area, areas_of
from .faults import Status, Stopped
from .letter_ways import LetterWays, is_robot
from .new_letters import KILL_SENT, NewLetter, write_letter
from .recent import Recent
from .requests import Request, paths_of, request_of
from .robot_session import DAY, Session, begin
from .robot_words import wishes_in
from .station import Station
from .whole_files import content_of

KNOWN = "areafix.known"
REFUSED = "areafix.refused"
MOST_REFUSED = 20  # answers a day to letters that are not accepted
NOT_ACCEPTED = "not accepted"
NAME, SUBJECT = b"AreaFix", b"Re: your request"


class AreaFix:
    """One run."""

    def __init__(self, station: Station, areas: dict[str, Area]) -> None:
        self.station, self.areas = station, areas
        self.disk = station.disk
        self.ways = LetterWays(station)
        self.known = set(content_of(station.at(KNOWN)).split(b"\n"))

    def work_off(self, path: str) -> None:
        """Works off one letter."""
        request = request_of(content_of(path))
        digest = request.digest()
        if digest not in self.known:
            try:
                self.do(request, digest)
            except Stopped as fault:
                if fault.status is not Status.REFUSED:
                    raise
                return  # the link file has a fault, or takes no more: the letter waits, and `status` says so
        self.disk.unlink(path)
        self.disk.sync(self.station.at("areafix"))

    def do(self, request: Request, digest: bytes) -> None:
        """Does what a letter wants, and answers."""
        link = self.asker(request)
        if link is None:
            lines, what = [NOT_ACCEPTED], "%s %s" % (request.route.by, NOT_ACCEPTED)
        else:
            wishes = list(wishes_in(request.letter.text()))
            begin(self.station, wishes)
            session = Session(self.station, link, self.areas, wishes)
            lines = session.lines()
            what = "%s %d changes" % (self.station.peers.net_address(link), session.changes)
        is_answered = self.may_answer(request, link)
        self.note(digest)
        self.station.log("areafix " + what)
        if is_answered:
            self.answer(request, lines)

    def note(self, digest: bytes) -> None:
        """Notes that a letter was worked off."""
        path = self.station.at(KNOWN)
        self.disk.append(path, digest + b"\n")
        if not self.known - {b""}:
            self.disk.sync(self.station.folder)
        self.known.add(digest)

    def asker(self, request: Request) -> Optional[Address]:
        """The link that a letter is accepted from."""
        by, peers = request.route.by, self.station.peers
        link = peers.fake_of.get(by, by.boss())
        word = peers.peer(link).areafix.encode("ascii").lower() if link in peers.peers else b""
        first = (request.letter.field("subject").split() or [b""])[0].lower()
        is_direct = request.sender in (by, by.boss())
        is_forged = request.sender in (self.station.own, self.station.real)  # nobody else has packets from here
        return link if word and first == word and is_direct and not is_forged and not self.station.is_own(link) else None

    def may_answer(self, request: Request, link: Optional[Address]) -> bool:
        """Whether a letter is answered. Robots never are. Answers to letters that are not accepted are few, so that they
        tell nothing, and two programs cannot write to each other for ever."""
        by = request.route.by
        is_address = by.zone > 0 and by.net > 0 and max(by.zone, by.net, by.node, by.point) <= GREATEST
        if is_robot(request.letter.field("from")) or self.is_here(by) or not is_address:
            return False
        if self.ways.next_system(by) is None:
            return False
        if link is not None:
            return True
        refused = Recent(self.station, REFUSED, DAY)
        if refused.count(str(by)) or len(refused.lines) >= MOST_REFUSED:
            return False
        refused.add(str(by), time.time())
        return True

    def is_here(self, address: Address) -> bool:
        """Whether an address is this station, or a point of it that is not known: an answer would come back."""
        return self.station.is_own(address) or (self.station.is_own(address.boss()) and address not in self.station.peers.fake_of)

    def answer(self, request: Request, lines: list[str]) -> None:
        """Writes the answer."""
        found = request.letter.id()
        head = [b"\x01REPLY: " + found] if found else []
        body = [line.encode("utf-8", "surrogateescape") for line in lines]
        if not all(line.isascii() for line in body):
            head.append(b"\x01CHRS: UTF-8 4")
        text = b"".join(line + b"\r" for line in head + body)
        to, name = request.route.by, request.letter.field("from")[:35]
        write_letter(self.station, NewLetter(to, name, NAME, SUBJECT, text, KILL_SENT))


def work_off_requests(station: Station) -> int:
    """Works off all letters that came. Without any, nothing is read. A faulty file `areas` lets them wait."""
    paths = paths_of(station)
    if not paths:
        return Status.GOOD
    station.load()
    try:
        areas = areas_of(station)
    except Stopped:
        return Status.GOOD
    station.lock("scan.lock", is_its_run=False)
    run = AreaFix(station, areas)
    for path in paths:
        run.work_off(path)
    return Status.GOOD
