"""What one letter to AreaFix does and is told, line by line."""
from __future__ import annotations

import time
from typing import Callable, Iterator, Optional

from fidonet.addresses import Address

from .areas import Area
from .judging_links import Judge, Refusal, tag_word
from .link_file import LinkFile
from .link_lines import links_in, with_link, without_link
from .pausing import Pauses
from .recent import Recent
from .rescans import rescan
from .robot_words import FORMS, Kind, Wish
from .seen_links import look_if_grown
from .station import Station

DAY = 86400
RESCANS = "areafix.rescans"


class Session:
    """The letter of a link. Changes of the link file are one, up to a line that needs them."""

    def __init__(self, station: Station, link: Address, areas: dict[str, Area], wishes: list[Wish]) -> None:
        self.station, self.link, self.areas, self.wishes = station, link, areas, wishes
        self.groups = station.peers.peer(link).groups
        self.file: Optional[LinkFile] = None
        self.text = b""
        self.judged: Optional[bytes] = None  # the link file for which the refusals hold
        self.refusals: dict[str, Refusal] = {}
        self.changes = 0
        self.answers: dict[Kind, Callable[[Wish], Iterator[str]]] = {
            Kind.ADD: self.add,
            Kind.REMOVE: self.remove,
            Kind.LIST: lambda _: self.listed(True, True),
            Kind.QUERY: lambda _: self.listed(True, False),
            Kind.UNLINKED: lambda _: self.listed(False, True),
            Kind.RESCAN: self.rescan,
            Kind.PAUSE: lambda _: self.pause(),
            Kind.RESUME: lambda _: self.resume(),
            Kind.HELP: lambda _: iter(FORMS),
            Kind.UNKNOWN: lambda wish: iter(["unknown: " + wish.quoted]),
        }

    def lines(self) -> list[str]:
        """Does all, and returns the answer: each line, and what became of it."""
        found = []
        try:
            for wish in self.wishes:
                found.append("> " + wish.quoted)
                found += self.answers[wish.kind](wish)
            self.install()
        finally:
            self.close()
        self.station.read_links()
        Pauses(self.station).mend()
        return found

    def open(self) -> None:
        """Takes the link file. If others changed it, what was judged is judged again."""
        if self.file is None:
            self.file = LinkFile(self.station).__enter__()
            self.text = self.file.text
        if self.judged != self.file.text:
            self.judge_all()

    def judge_all(self) -> None:
        """Judges all areas that the letter asks for."""
        self.judged = self.text
        tags = [it.tag for it in self.wishes if it.kind is Kind.ADD and self.may_ask(it.tag) and not self.has(it.tag)]
        if tags:
            self.refusals = Judge(self.station).refusals(self.text, self.link, list(dict.fromkeys(tags)))

    def install(self) -> None:
        """Puts the changed link file in place."""
        if self.file is not None:
            self.file.install(self.text)
            self.judged = self.text

    def close(self) -> None:
        """Lets others have the link file."""
        if self.file is not None:
            self.file.__exit__(None, None, None)
            self.file = None

    def settle(self) -> None:
        """Ends the change, before a line that needs it or the lock."""
        self.install()
        self.close()
        self.station.read_links()

    def links(self, tag: str) -> Optional[list[Address]]:
        """The links of an area, with the changes so far."""
        return links_in(self.text, tag_word(tag))

    def has(self, tag: str) -> bool:
        """Whether the link has an area."""
        return self.link in (self.links(tag) or ())

    def may_ask(self, tag: str) -> bool:
        """Whether an area is one that the link may ask for."""
        area = self.areas.get(tag)
        return area is not None and area.group in self.groups and self.links(tag) is not None

    def add(self, wish: Wish) -> Iterator[str]:
        """+TAG."""
        self.open()
        if self.has(wish.tag):
            yield "%s: you have it" % wish.tag
        elif not self.may_ask(wish.tag):
            yield "%s: no such area" % wish.tag
        elif wish.tag in self.refusals:
            refusal = self.refusals[wish.tag]
            other = refusal.beside(self.link, self.station.own)
            reason = "you get it already by %s" % self.station.peers.net_address(other) if other else str(refusal)
            yield "%s: refused: %s" % (wish.tag, reason)
        else:
            self.text = with_link(self.text, tag_word(wish.tag), self.link)
            self.changes += 1
            yield "%s: linked" % wish.tag

    def remove(self, wish: Wish) -> Iterator[str]:
        """-TAG."""
        self.open()
        Pauses(self.station).forget(self.link, [wish.tag])
        if self.has(wish.tag):
            self.text = without_link(self.text, tag_word(wish.tag), self.link)
            self.changes += 1
            yield "%s: removed" % wish.tag
        else:
            yield "%s: you do not have it" % wish.tag

    def listed(self, with_linked: bool, with_others: bool) -> Iterator[str]:
        """%LIST, %QUERY, %UNLINKED."""
        self.settle()
        linked = {tag for tag, links in self.station.areas.items() if self.link in links}
        others = {tag for tag, area in self.areas.items() if tag in self.station.areas and area.group in self.groups}
        for tag in sorted((linked if with_linked else set()) | (others - linked if with_others else set())):
            text = self.areas[tag].text if tag in self.areas else ""
            yield ("%s %s  %s" % ("*" if tag in linked else " ", tag, text)).rstrip()

    def rescan(self, wish: Wish) -> Iterator[str]:
        """%RESCAN TAG N: once a day, however it ends."""
        self.open()
        has = self.has(wish.tag)
        self.settle()
        done = Recent(self.station, RESCANS, DAY)
        name = "%s %s" % (self.link, wish.tag)
        if not has:
            yield "%s: you do not have it" % wish.tag
        elif done.count(name):
            yield "%s: once a day" % wish.tag
        else:
            done.add(name, time.time())
            yield "%s: %d messages" % (wish.tag, rescan(self.station, self.link, wish.tag, wish.count))

    def pause(self) -> Iterator[str]:
        """%PAUSE."""
        self.settle()
        yield from self.counted(Pauses(self.station).pause(self.link).lines)

    def resume(self) -> Iterator[str]:
        """%RESUME."""
        self.settle()
        yield from self.counted(Pauses(self.station).resume(self.link, is_forced=False).lines)

    def counted(self, lines: list[str]) -> list[str]:
        """Lines of a command, after their changes were counted."""
        self.changes += sum(line.startswith(("subscribed ", "unsubscribed ")) for line in lines)
        return lines


def begin(station: Station, wishes: list[Wish]) -> None:
    """Looks at the ways of mail before areas are judged."""
    if any(wish.kind in (Kind.ADD, Kind.RESUME) for wish in wishes):
        look_if_grown(station)
