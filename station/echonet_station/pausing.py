"""Pauses links: the areas of a paused one are noted, each with how many messages were scanned then, in the file `paused`.

A scan sends a paused link nothing, since no area has it. What was scanned meanwhile is sent when it comes back. A note of
an area that has the link belongs to a command that was stopped. No scan goes on before such a note is used up."""
from __future__ import annotations

import zlib
from dataclasses import dataclass, field
from os.path import lexists

from fidonet.addresses import Address, address_of
from fidonet.packets import Packet

from .faults import Status, Stopped
from .options import given_by
from .rescans import purged_from, scanned_of, send_from
from .running import say_notes
from .station import Station
from .subscribing import Subscribing, What, areas_with, link_named, shown_tag, unsubscribe_each
from .whole_files import content_of, replace
from .words_links import PAUSE, RESUME

FILE = "paused"
Key = tuple[Address, str]


@dataclass
class Reply:
    """What a command prints, and how it ends."""

    lines: list[str] = field(default_factory=list)
    status: Status = Status.GOOD
    notes: list[str] = field(default_factory=list)  # for the sysop, not for the link


class Pauses:
    """The notes. The caller has the lock of scans."""

    def __init__(self, station: Station) -> None:
        self.station = station
        self.path = station.at(FILE)
        self.notes: dict[Key, int] = {}
        for line in content_of(self.path).decode("latin-1").split("\n"):
            words = line.split(" ")
            link = address_of(words[0])
            if len(words) == 3 and link and words[2].isdigit():
                self.notes[link, words[1]] = int(words[2])

    def save(self) -> None:
        """Writes the notes."""
        if self.notes:
            lines = ("%s %s %d\n" % (link, tag, count) for (link, tag), count in sorted(self.notes.items()))
            replace(self.station.disk, self.path, "".join(lines).encode("latin-1"))
        elif lexists(self.path):
            self.station.disk.unlink(self.path)
            self.station.disk.sync(self.station.folder)

    def tags(self, link: Address) -> list[str]:
        """The areas in which a link is paused."""
        return sorted(tag for other, tag in self.notes if other == link)

    def forget(self, link: Address, tags: list[str]) -> None:
        """Drops notes: the link does not want these areas any more."""
        found = [key for key in self.notes if key[0] == link and key[1] in tags]
        for key in found:
            del self.notes[key]
        if found:
            self.save()

    def pause(self, link: Address) -> Reply:
        """Notes the areas of a link, and then takes them away."""
        scanned = scanned_of(self.station)
        tags = areas_with(self.station, link)
        self.mend()  # a note of an area that has the link tells since when it lacks messages
        self.notes.update({(link, tag): scanned for tag in tags})
        self.save()
        address = self.station.peers.net_address(link)
        lines = ["unsubscribed %s %s" % (address, shown_tag(tag)) for tag, _ in unsubscribe_each(self.station, link, tags)]
        return Reply([*lines, "paused %s: %d areas" % (address, len(self.tags(link)))])

    def resume(self, link: Address, is_forced: bool) -> Reply:
        """Gives a link its areas again, and sends what was scanned meanwhile."""
        address, tags = self.station.peers.net_address(link), self.tags(link)
        if not tags:
            return Reply(["not paused %s" % address], Status.REFUSED)
        subscribing = Subscribing(self.station, link, is_forced)
        outcomes = list(subscribing.subscribe(tags))
        good = [it.tag for it in outcomes if it.what is not What.REFUSED]
        purged = sum(purged_from(self.station, link, tag, self.notes[link, tag]) for tag in good)
        messages = sum(self.finish(link, tag) for tag in good)
        last = "resumed %s: %d areas, %d messages%s" % (address, len(good), messages, ", %d purged" % purged if purged else "")
        unjudged = subscribing.unjudged()
        lines = [*subscribing.notes, *(it.line(address) for it in outcomes), *([unjudged] if unjudged else []), last]
        return Reply(lines, Status.GOOD if len(good) == len(tags) else Status.HAND, subscribing.advice)

    def finish(self, link: Address, tag: str) -> int:
        """Sends a link what was scanned meanwhile, once, and drops the note. Returns how many messages that are."""
        count = self.notes[link, tag]
        name = "p%d-%08x.pkt" % (count, zlib.crc32(tag.encode("latin-1")))
        path = self.station.at("scanned", "%d.%d.%d.%s" % (link.zone, link.net, link.node, name))
        if lexists(path):  # of a run that was stopped before it dropped the note
            with Packet(path) as packet:
                messages = packet.count()
        else:
            messages = send_from(self.station, link, tag, count, name, takes_all=False)
        self.forget(link, [tag])
        return messages

    def mend(self) -> None:
        """Uses up the notes of areas that have the link."""
        for link, tag in sorted(self.notes):
            if link in self.station.areas.get(tag, ()):
                self.finish(link, tag)


def mend(station: Station) -> int:
    """Ends what a stopped command began, before a scan."""
    if lexists(station.at(FILE)):
        Pauses(station).mend()
    return Status.GOOD


def reply_of(station: Station, reply: Reply) -> int:
    """Prints a reply. Returns its status."""
    if reply.status is Status.REFUSED:
        raise Stopped(Status.REFUSED, reply.lines[-1])
    for line in reply.lines:
        station.say(line)
    say_notes(reply.notes)
    return reply.status


def pause(station: Station, words: list[str]) -> int:
    """The command `pause`."""
    station.lock("scan.lock", is_its_run=False)
    station.load()
    link = link_named(station, given_by(PAUSE, words).words[0])
    return reply_of(station, Pauses(station).pause(link))


def resume(station: Station, words: list[str]) -> int:
    """The command `resume`."""
    from .seen_links import look_if_grown

    station.lock("scan.lock", is_its_run=False)
    station.load()
    given = given_by(RESUME, words)
    link = link_named(station, given.words[0])
    look_if_grown(station)
    return reply_of(station, Pauses(station).resume(link, given.has("--force")))
