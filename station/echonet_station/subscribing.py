"""Gives links areas, and takes them away: each is one change of the link file, which is judged first. So a kill leaves what
was printed."""
from __future__ import annotations

import os
from dataclasses import dataclass
from enum import Enum
from typing import Iterator, Optional

from fidonet.addresses import Address, address_of

from .faults import Status, Stopped
from .judging_links import Judge, Refusal, tag_word
from .link_file import LinkFile
from .link_lines import links_in, with_link, without_link
from .printing import shown, shown_path
from .station import Station


class What(Enum):
    """What became of an area that a link should get."""

    DONE = "subscribed"
    ALREADY = "already"
    REFUSED = "refused"


@dataclass(frozen=True)
class Outcome:
    """What became of one area, and why it was refused."""

    tag: str
    what: What
    reason: str = ""
    refusal: Optional[Refusal] = None

    def line(self, address: Address) -> str:
        """The line that says so."""
        reason = ": " + self.reason if self.reason else ""
        return "%s %s %s%s" % (self.what.value, address, shown_tag(self.tag), reason)


def tag_named(word: str) -> str:
    """The tag that a word names, as link files are read: byte for byte, its letters a to z in capitals."""
    return os.fsencode(word).upper().decode("latin-1")


def shown_tag(tag: str) -> str:
    """A tag as it is printed."""
    return shown(tag_word(tag))


def link_named(station: Station, word: str) -> Address:
    """The link that a word names, as `links` has it."""
    address = address_of(word, may_be_point=True)
    link = station.peers.link_of(address) if address else None
    if link is None or link.point:
        raise Stopped(Status.REFUSED, "bad address %s" % shown_path(word))
    if station.is_own(link):
        raise Stopped(Status.REFUSED, "own address %s" % link)
    return link


class Subscribing:
    """Changes the areas of a link. What is to be known of the judging goes to `notes`, and what a sysop may do
    about it to `advice`."""

    def __init__(self, station: Station, link: Address, is_forced: bool = False) -> None:
        self.station = station
        self.link = link
        self.judge = None if is_forced else Judge(station)
        self.notes = [] if self.judge is None else self.judge.left_out
        self.advice = [] if self.judge is None else self.judge.notes
        self.was_done = False

    def lacks(self, text: bytes, tag: str) -> bool:
        """Whether the file has an area without the link."""
        links = links_in(text, tag_word(tag))
        return links is not None and self.link not in links

    def outcome(self, text: bytes, tag: str, refusals: dict[str, Refusal]) -> Outcome:
        """What is to become of an area."""
        links = links_in(text, tag_word(tag))
        if links is None:
            return Outcome(tag, What.REFUSED, "no area")
        if self.link in links:
            return Outcome(tag, What.ALREADY)
        refusal = refusals.get(tag)
        return Outcome(tag, What.REFUSED, str(refusal), refusal) if refusal else Outcome(tag, What.DONE)

    def refusals(self, text: bytes, tags: list[str]) -> dict[str, Refusal]:
        """Which areas the link should not have."""
        if self.judge is None:
            return {}
        return self.judge.refusals(text, self.link, [tag for tag in dict.fromkeys(tags) if self.lacks(text, tag)])

    def subscribe(self, tags: list[str]) -> Iterator[Outcome]:
        """Gives the link areas, one after the other."""
        with LinkFile(self.station) as file:
            refusals = self.refusals(file.text, tags)
            for tag in tags:
                found = self.outcome(file.text, tag, refusals)
                if found.what is What.DONE:
                    file.install(with_link(file.text, tag_word(tag), self.link))
                    self.was_done = True
                yield found

    def unjudged(self) -> Optional[str]:
        """The line that says that nothing was judged."""
        has_net = self.judge is None or self.judge.has_net
        return None if has_net or not self.was_done else "not judged: no link files in net"


def unsubscribe_each(station: Station, link: Address, tags: list[str]) -> Iterator[tuple[str, bool]]:
    """Takes areas away, one after the other. Tells which of them the link had."""
    with LinkFile(station) as file:
        for tag in tags:
            had = link in (links_in(file.text, tag_word(tag)) or ())
            if had:
                file.install(without_link(file.text, tag_word(tag), link))
            yield tag, had


def areas_with(station: Station, link: Address) -> list[str]:
    """The areas that a link has, by the link file as it is."""
    station.read_links()
    return sorted(tag for tag, links in station.areas.items() if link in links)
