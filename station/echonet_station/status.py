"""Prints how a station is, and what needs a hand."""
from __future__ import annotations

import json
import os
import re
import time
from os.path import exists, join
from typing import TYPE_CHECKING, Iterator, Optional

from .bad_files import bad_files, first_line, new_areas
from .bundles import BUNDLE_NAME
from .calls import call, program
from .faults import Status, Stopped
from .flows import flows, size_of
from .inbound import is_mine, is_packet_name
from .options import given_by
from .printing import shown_age, shown_path
from .station import Station, names_in
from .words import BY_NAME

if TYPE_CHECKING:
    from .log_sums import LogSums

LATE = 600  # seconds in which a received file is tossed, and a letter sent
LATE_PACKET = 3 * 86400
LATE_HOLD = 3600
LEAST_FREE = 100 << 20


def age(path: str) -> float:
    """How long a file is there. A mailer may give it the time of its sender, so the later time counts."""
    about = os.lstat(path)
    return time.time() - max(about.st_mtime, about.st_ctime)


class Report:
    """The lines of a report. Those that need a hand come at the end."""

    def __init__(self, station: Station, sums: Optional[dict[int, LogSums]] = None) -> None:
        self.station, self.sums = station, sums  # the log's, if a page shows them
        self.lines: list[str] = []
        self.facts: dict[str, list[dict[str, object]]] = {}
        self.hands: list[str] = []

    def say(self, line: str, **values: object) -> None:
        """Adds a line, and what it says: the first word tells what it is about."""
        self.lines.append(line)
        self.facts.setdefault(line.split(" ", 1)[0], []).append(values)

    def hand(self, line: str) -> None:
        """Notes what needs a hand."""
        self.hands.append(line)

    def look(self) -> Status:
        """Looks at all."""
        own = self.station.own
        self.say("station %s %s" % (own, self.station.folder), address=str(self.station.real), folder=shown_path(self.station.folder))
        looks = (self.runs, self.areas, self.links, self.received, self.waiting, self.bad, self.letters, self.asked, self.known, self.repairs)
        for step in (*looks, self.disk):
            step()
        return Status.HAND if self.hands else Status.GOOD

    def show(self) -> None:
        """Prints all."""
        for line in (*self.lines, *("hand %s" % line for line in self.hands)):
            self.station.say(line)

    def runs(self) -> None:
        """When the scripts ran."""
        for name in ("toss", "scan"):
            lock = self.station.at(name + ".lock")
            seconds = time.time() - os.stat(lock).st_mtime if exists(lock) else None
            when = "never" if seconds is None else shown_age(seconds) + " ago"
            self.say("%s %s" % (name, when), seconds=None if seconds is None else max(0, int(seconds)))

    def areas(self) -> None:
        """The areas of the base."""
        base = self.station.at("base")
        if not exists(base):
            return
        ran = call(program(), "list", "--areas", base)
        for line in ran.output.split("\n"):
            words = line.split(" ")
            if words[0] == "area" and len(words) == 8:
                counts = {"messages": int(words[3]), "waiting": int(words[5]), "purged": int(words[7])}
                self.say(line, tag=words[1], **counts)
        if ran.status:
            self.hand("base: %s" % ran.faults.strip().split("\n")[0])
        self.count(ran.output)

    def count(self, listed: str) -> None:
        """Whether the base has fewer messages than at an earlier scan (count.sh)."""
        path, ending = self.station.at("count"), re.search(r"^end ([0-9]+) messages", listed, re.M)
        if ending and exists(path):
            with open(path, encoding="latin-1") as file:
                before = file.readline().strip()
            if before.isdecimal() and int(ending[1]) < int(before):
                self.hand("base: %s messages, and had %s: repair it before you post" % (ending[1], before))

    def links(self) -> None:
        """What waits for the links."""
        for flow in flows(self.station):
            if flow.there or flow.gone:
                oldest = max(map(age, flow.there), default=0)
                size = size_of(flow)
                line = "link %s packets %d bytes %d oldest %s" % (flow.link, len(flow.there), size, shown_age(oldest))
                self.say(line, address=str(flow.link), packets=len(flow.there), bytes=size, seconds=int(oldest))
                if flow.gone:
                    self.hand("link %s: %d packets of its flow file are gone" % (flow.link, flow.gone))
                if oldest > LATE_PACKET:
                    self.hand("link %s: a packet waits for %s" % (flow.link, shown_age(oldest)))
            if flow.hold:
                held = age(flow.hold)
                self.say("held %s %s" % (flow.link, shown_age(held)), address=str(flow.link), seconds=int(held))
                if held > LATE_HOLD:
                    self.hand("link %s is held for %s" % (flow.link, shown_age(held)))

    def received(self) -> None:
        """Files that the mailer brought and no run takes."""
        for name in names_in(self.station.inbound):
            path = join(self.station.inbound, name)
            if age(path) < LATE:
                continue
            why = self.why_left(name, path)
            if why:
                self.say("left %s %s: %s" % (shown_path(name), shown_age(age(path)), why), name=shown_path(name), why=why)
                self.hand("left %s" % shown_path(name))

    def why_left(self, name: str, path: str) -> Optional[str]:
        """Why a file was not taken. Nothing if it is none of this station's."""
        has_peers = exists(self.station.at("peers"))
        if is_packet_name(name):
            return "not tossed: does toss run?" if is_mine(self.station, path) else "for another station"
        if BUNDLE_NAME.search(name):
            if not has_peers:
                return "a bundle: they need a file peers"
            return "bundle, left for another station" if self.station.peers.leaves_all else "bundle: does toss run?"
        if name.endswith((".ask", ".ids")):
            from .lists import list_name

            found = list_name(name)
            if found:
                return "a list for a repair: does scan run?" if self.station.is_own(found.receiver) else "for another station"
        if name.endswith(".bad"):
            return "check-pkthdr of binkd: the sender is not the session's"
        return None

    def waiting(self) -> None:
        """Files that a run left on their way."""
        for folder in ("gate", "tossing", "scanned"):
            paths = (self.station.at(folder, name) for name in names_in(self.station.at(folder)) if name.endswith((".in", ".pkt")))
            late = sum(age(path) > LATE for path in paths)
            if late:
                self.say("waits %s %d files" % (folder, late), folder=folder, files=late)
                self.hand("%d files in %s" % (late, folder))

    def bad(self) -> None:
        """What was put aside."""
        names = bad_files(self.station)
        if names:
            first = min(names, key=lambda name: os.lstat(self.station.at("bad", name)).st_ctime)
            reason = shown_path(first_line(self.station, first))
            line = "bad %d files, first %s: %s" % (len(names), shown_path(first), reason)
            self.say(line, files=len(names), first=shown_path(first), reason=reason)
            self.hand("bad: see bad/*.why, then retoss")
        for area in new_areas(self.station):
            self.say(str(area), tag=shown_path(area.tag), sender=str(area.sender), messages=area.messages)

    def letters(self) -> None:
        """Letters that were not sent."""
        names = list(self.unsent())
        if names:
            self.say("letters unsent %d, first %s" % (len(names), names[0]), unsent=len(names), first=names[0])
            self.hand("unsent letters")

    def unsent(self) -> Iterator[str]:
        """The names of letters that wait for some time. Without letters the modules on them are not imported."""
        names = names_in(self.station.at("netmail"))
        if not names:
            return
        from fidonet.stored import HEAD_SIZE, IN_TRANSIT, LOCAL, NAME, SENT, Stored

        for name in filter(NAME.fullmatch, names):
            path = self.station.at("netmail", name)
            with open(path, "rb") as file:
                attributes = Stored(name, file.read(HEAD_SIZE)).attributes()
            if attributes & (LOCAL | IN_TRANSIT) and not attributes & SENT and age(path) > LATE:
                yield name

    def asked(self) -> None:
        """Whether the file of areas can be read, for which letters to AreaFix wait, and whether some wait for long."""
        if exists(self.station.at("areas")):
            from .areas import areas_of

            try:
                areas_of(self.station)
            except Stopped as fault:
                self.hand(str(fault))
        folder = self.station.at("areafix")
        late = sum(age(join(folder, name)) > LATE for name in names_in(folder))
        if late:
            self.hand("%d letters to AreaFix wait" % late)

    def known(self) -> None:
        """Whether links send messages again that are known: a loop. Without a log its module is not imported."""
        if exists(self.station.at("log")):
            from .known_loops import DAYS, loops_seen

            for loop in loops_seen(self.station, self.sums[DAYS] if self.sums else None):
                self.hand(str(loop))

    def repairs(self) -> None:
        """An open round of repair. Without one its modules are not imported."""
        if exists(self.station.at("repair", "round")):
            from .rounds import Round

            round_ = Round(self.station)
            answered = sum(pair.answer is not None for pair in round_.pairs)
            line = "repair since %s, %d of %d answered" % (shown_age(round_.age()), answered, len(round_.pairs))
            self.say(line, seconds=int(round_.age()), answered=answered, asked=len(round_.pairs))

    def disk(self) -> None:
        """The room on the disk."""
        about = os.statvfs(self.station.folder)
        free = about.f_bavail * about.f_frsize
        self.say("disk %d MB free" % (free >> 20), free=free)
        if free < LEAST_FREE:
            self.hand("disk nearly full")


def status(station: Station, words: list[str]) -> int:
    """The command `status`."""
    given = given_by(BY_NAME["status"], words)
    station.load()
    if given.has("--page") and not given.has("--json"):
        return page(station, given.one("--page"))
    report = Report(station)
    ended = report.look()
    if given.has("--json"):
        from .status_page import as_object

        station.say(json.dumps(as_object(report.facts, report.hands)))
    else:
        report.show()
    return ended


def page(station: Station, path: str) -> Status:
    """The same, as a page. The log is read once, for the page and for loops."""
    from .status_page import Page, sums_of_page, write_page

    sums = sums_of_page(station)
    report = Report(station, sums)
    ended = report.look()
    write_page(Page(station, report.facts, report.hands, sums), path)
    return ended
