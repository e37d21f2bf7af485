"""The configuration of binkd, as far as a station depends on it."""
from __future__ import annotations

import re
import shlex
from dataclasses import dataclass, field
from os.path import dirname, exists, join, realpath
from typing import Iterator, Optional

from fidonet.addresses import Address, address_of

from .station import Station

PLACES = ("/etc/binkd/binkd.cfg", "/etc/binkd.conf")
DEEPEST = 4  # files that include others
HOOKED_BUNDLES = re.compile(r"\*\.(\[?mo|\[?su|\?\?)", re.I)


@dataclass(frozen=True)
class Finding:
    """One thing that was looked at, and what to do if it is not good."""

    what: str
    is_good: bool
    advice: str = ""
    is_note: bool = False  # good to know, and no fault


@dataclass
class Mailer:
    """The lines of the configuration, each as its words."""

    lines: list[list[str]] = field(default_factory=list)

    def first(self, word: str) -> list[str]:
        """The words after the first line of this kind."""
        return next((line[1:] for line in self.lines if line[0] == word), [])

    def all(self, word: str) -> list[list[str]]:
        """The words after all lines of this kind."""
        return [line[1:] for line in self.lines if line[0] == word]


def words_of(line: str) -> list[str]:
    """The words of a line. Quotes may surround one."""
    try:
        return shlex.split(line, comments=True, posix=True)
    except ValueError:
        return line.split()


def lines_of(path: str, depth: int = 0) -> Iterator[list[str]]:
    """The lines of a file and of those that it includes."""
    with open(path, encoding="utf-8", errors="surrogateescape") as file:
        for line in file.read().split("\n"):
            words = words_of(line)
            if words[:1] == ["include"] and len(words) == 2 and depth < DEEPEST:
                other = join(dirname(path), words[1])
                if exists(other):
                    yield from lines_of(other, depth + 1)
            elif words:
                yield words


def configuration(station: Station, words: list[str]) -> Optional[str]:
    """The file that the sysop named, or one of the usual places."""
    if words:
        return words[0]
    places = (station.at("binkd.conf"), station.at("binkd.cfg"), *PLACES)
    return next((place for place in places if exists(place)), None)


def look_at_mailer(station: Station, path: str) -> Iterator[Finding]:
    """What the mailer has to do for this station."""
    mailer = Mailer(list(lines_of(path)))
    above = dirname(station.folder)
    inbound = realpath(station.inbound)

    def is_inbound(words: list[str]) -> bool:
        return bool(words) and realpath(join(above, words[0])) == inbound

    box, strangers, parts = mailer.first("inbound"), mailer.first("inbound-nonsecure"), mailer.first("temp-inbound")
    yield Finding("binkd: inbound", is_inbound(box), "it is not %s" % station.inbound)
    yield Finding("binkd: inbound-nonsecure", bool(strangers) and not is_inbound(strangers), "anyone can post")
    yield Finding("binkd: temp-inbound", bool(parts) and not is_inbound(parts), "received parts lie in inbound")
    checks = mailer.first("check-pkthdr")[:1] == ["all"]
    yield Finding("binkd: check-pkthdr all .bad", checks, "a link can send in the name of another")
    hooks = [words for words in mailer.all("exec") if is_toss(words)]
    for_packets = any("*.pkt" in map(str.lower, words[1:]) for words in hooks)
    yield Finding("binkd: exec for packets", for_packets, "mail waits for the timer")
    for_bundles = any(HOOKED_BUNDLES.match(word) for words in hooks for word in words[1:])
    yield Finding("binkd: exec for bundles", for_bundles, "bundles wait for the timer: add " + BUNDLE_MASKS)
    yield look_at_domain(station, mailer, above)
    yield from look_at_nodes(station, mailer)


BUNDLE_MASKS = "*.mo? *.tu? *.we? *.th? *.fr? *.sa? *.su?"


def is_toss(words: list[str]) -> bool:
    """Whether a command of binkd tosses."""
    return bool(words) and re.search(r"echonet-station\s.*\b(toss|run)\b", words[0]) is not None


def look_at_domain(station: Station, mailer: Mailer, above: str) -> Finding:
    """Whether the mailer looks for flow files where scans write them."""
    outbound = realpath(station.outbound)
    good = any(
        len(words) > 2 and realpath(join(above, words[1])) == outbound and words[2] == str(station.real.zone)
        for words in mailer.all("domain")
    )
    advice = "no domain line has %s and zone %d" % (station.outbound, station.real.zone)
    return Finding("binkd: domain", good, advice)


def look_at_nodes(station: Station, mailer: Mailer) -> Iterator[Finding]:
    """Whether each link has a line with a password."""
    nodes: dict[Optional[Address], list[str]] = {}
    for words in mailer.all("node"):
        if words:
            nodes[address_of(words[0].split("@")[0], may_be_point=True)] = words
    for link in sorted(station.links()):
        real = station.peers.real_of.get(link, link)
        words = [word for word in nodes.get(real, []) if not word.startswith("-") or word == "-"]
        has_password = len(words) > 2 and words[2] != "-"
        yield Finding("binkd: node %s" % real, has_password, "no node line with a password")
