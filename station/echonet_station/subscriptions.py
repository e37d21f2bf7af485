"""The commands `subscribe` and `unsubscribe`."""
from __future__ import annotations

from fidonet.addresses import Address

from .faults import Status, Stopped
from .options import Given, given_by, refused
from .pausing import Pauses
from .peer_lines import read_only_too
from .rescans import rescan
from .running import say_notes
from .seen_links import look_if_grown
from .station import Station
from .subscribing import Outcome, Subscribing, What, areas_with, link_named, shown_tag, tag_named, unsubscribe_each
from .words_links import SUBSCRIBE, UNSUBSCRIBE

MOST_DIGITS = 9


def rescan_count(given: Given) -> int:
    """How many messages are to be sent again."""
    word = given.one("--rescan")
    if word and not (word.isascii() and word.isdigit() and len(word) <= MOST_DIGITS):
        raise refused(SUBSCRIBE, "bad number")
    return int(word or 0)


def subscribe_all(station: Station, link: Address, tags: list[str], is_forced: bool) -> list[Outcome]:
    """Gives a link areas, and prints a line for each."""
    look_if_grown(station)
    subscribing = Subscribing(station, link, is_forced)
    for line in subscribing.notes:
        station.say(line)
    address, outcomes = station.peers.net_address(link), []
    for outcome in subscribing.subscribe(tags):
        station.say(outcome.line(address))
        outcomes.append(outcome)
    unjudged = subscribing.unjudged()
    if unjudged:
        station.say(unjudged)
    say_notes(subscribing.advice)
    return outcomes


def subscribe(station: Station, words: list[str]) -> int:
    """The command `subscribe`. It has the lock of scans: an area that was paused is sent once what came meanwhile."""
    given = given_by(SUBSCRIBE, words)
    count, tags = rescan_count(given), list(map(tag_named, given.words[1:]))
    station.lock("scan.lock", is_its_run=False)
    station.load()
    link = link_named(station, given.words[0])
    if given.has("--read-only"):
        read_only_too(station, link, tags)
    outcomes = subscribe_all(station, link, tags, given.has("--force"))
    good = [it.tag for it in outcomes if it.what is not What.REFUSED]
    station.read_links()
    Pauses(station).mend()
    for tag in dict.fromkeys(good if count else ()):
        rescan(station, link, tag, count)
    return Status.GOOD if len(good) == len(outcomes) else Status.HAND


def unsubscribe(station: Station, words: list[str]) -> int:
    """The command `unsubscribe`."""
    given = given_by(UNSUBSCRIBE, words)
    tags = list(map(tag_named, given.words[1:]))
    if given.has("--all") == bool(tags):
        raise Stopped(Status.COMMAND, "unsubscribe: give areas, or --all")
    station.lock("scan.lock", is_its_run=False)
    station.load()
    link = link_named(station, given.words[0])
    Pauses(station).mend()
    take_away(station, link, tags)
    return Status.GOOD


def take_away(station: Station, link: Address, tags: list[str]) -> None:
    """Takes areas away, or all without tags, and prints a line for each."""
    address, pauses = station.peers.net_address(link), Pauses(station)
    pauses.forget(link, tags or pauses.tags(link))
    for tag, had in unsubscribe_each(station, link, tags or areas_with(station, link)):
        station.say("%s %s %s" % ("unsubscribed" if had else "not linked", address, shown_tag(tag)))
