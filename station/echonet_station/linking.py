"""The commands `link` and `unlink`: the lines of a link in peers, in the configuration of binkd, and in the link file."""
from __future__ import annotations

import re
from dataclasses import dataclass
from os.path import lexists

from fidonet.addresses import Address

from .faults import Status, Stopped
from .flows import flows
from .making import PLAIN, TAG
from .node_lines import Nodes
from .options import Given, given_by
from .pausing import Pauses
from .peer_lines import change_peers, with_line, without_link
from .peers import GROUPS, LEAST_AREAFIX, MOST_AREAFIX, MOST_PASSWORD
from .station import Station
from .subscribing import What, areas_with, link_named, shown_tag, unsubscribe_each
from .subscriptions import subscribe_all
from .whole_files import content_of
from .words_links import LINK, UNLINK

WORD = re.compile("[!-~]+")


@dataclass(frozen=True)
class Order:
    """What the sysop says of a link."""

    link: Address
    host: str
    password: str
    plus: bool
    areafix: str
    groups: str
    tags: list[str]

    def peer_words(self) -> list[str]:
        """The words of its PEER line."""
        words = ["PASSWORD", self.password[:MOST_PASSWORD]] if self.password else []
        words += ["PLUS"] if self.plus else []
        words += ["AREAFIX", self.areafix] if self.areafix else []
        return words + (["GROUPS", self.groups] if self.groups else [])

    def fits(self, station: Station) -> bool:
        """Whether the line that is there says all this."""
        peer = station.peers.peer(self.link)
        return (
            self.password[:MOST_PASSWORD] in ("", peer.password.decode("ascii"))
            and (peer.plus or not self.plus)
            and self.areafix in ("", peer.areafix)
            and self.groups in ("", peer.groups)
        )


def refused_word(what: str) -> Stopped:
    """The fault of a word."""
    return Stopped(Status.COMMAND, "link: %s" % what)


def order_of(station: Station, given: Given) -> Order:
    """Reads the command line. All words are judged before anything is done."""
    host, password, areafix, groups = map(given.one, ("--host", "--password", "--areafix", "--groups"))
    link = link_named(station, given.words[0])
    for what, word in (("host", host), ("password", password)):
        if given.has("--" + what) and (not PLAIN.fullmatch(word) or word.startswith("-")):
            raise refused_word("the %s has a blank, a quote or another sign that binkd reads" % what)
    if given.has("--areafix") and not (WORD.fullmatch(areafix) and LEAST_AREAFIX <= len(areafix) <= MOST_AREAFIX):
        raise refused_word("the word of areafix has %d to %d signs, and no blank" % (LEAST_AREAFIX, MOST_AREAFIX))
    if given.has("--groups") and not GROUPS.fullmatch(groups):
        raise refused_word("groups are letters A to Z")
    for tag in given.words[1:]:
        if not TAG.fullmatch(tag):
            raise refused_word("a tag has a blank or a control byte")
    tags = [tag.upper() for tag in given.words[1:]]
    return Order(link, host, password, given.has("--plus"), areafix, groups, tags)


def mail_to(station: Station, order: Order, given: list[str]) -> list[str]:
    """A mail to the sysop of the link, with the areas that it gets."""
    tags = " ".join(dict.fromkeys(given)) or "no areas yet"
    lines = [
        "mail to the sysop of %s:" % station.peers.net_address(order.link),
        "",
        "  My node %s sends you %s." % (station.real, tags),
        "  Password of sessions (binkp) and of packets: as agreed (that of packets is its first 8 characters).",
        "  I send plain packets%s. Zip bundles and packets of type 2+ are fine." % (" of type 2+" if order.plus else ""),
    ]
    if order.areafix:
        lines.append("  Areas: netmail to AreaFix at %s, the word that we agreed on as its subject, %%HELP as its text." % station.real)
    return lines


def link(station: Station, words: list[str]) -> int:
    """The command `link`. What is there already is kept."""
    given = given_by(LINK, words)
    station.lock("scan.lock", is_its_run=False)
    station.load()
    order = order_of(station, given)
    address = station.peers.net_address(order.link)
    nodes = Nodes(station)
    if order.link in station.peers.peers and not order.fits(station):
        raise Stopped(Status.REFUSED, "%s has a PEER line: edit peers" % address)
    if not nodes.fits(address, order.host, order.password):
        raise Stopped(Status.REFUSED, "%s has a node line: edit binkd.conf" % address)
    peer_words = order.peer_words()
    if peer_words and order.link not in station.peers.peers:
        line = " ".join(["PEER", str(order.link), *peer_words])
        change_peers(station, with_line(content_of(station.at("peers")), line))
    if not nodes.has(address):
        if order.host and nodes.is_there:
            nodes.add(address, order.host, order.password)
        else:
            station.say(nodes.line(address, order.host, order.password))
    outcomes = subscribe_all(station, order.link, order.tags, given.has("--force")) if order.tags else []
    station.read_links()
    Pauses(station).mend()
    for line in mail_to(station, order, [it.tag for it in outcomes if it.what is not What.REFUSED]):
        station.say(line)
    return Status.HAND if any(it.what is What.REFUSED for it in outcomes) else Status.GOOD


def waiting_for(station: Station, address: Address) -> int:
    """How many packets wait for a link."""
    return sum(len(flow.there) for flow in flows(station) if flow.link == address)


def unlink(station: Station, words: list[str]) -> int:
    """The command `unlink`."""
    station.lock("scan.lock", is_its_run=False)
    station.load()
    link = link_named(station, given_by(UNLINK, words).words[0])
    address = station.peers.net_address(link)
    Pauses(station).forget(link, Pauses(station).tags(link))
    for tag, _ in unsubscribe_each(station, link, areas_with(station, link)):
        station.say("unsubscribed %s %s" % (address, shown_tag(tag)))
    if lexists(station.at("peers")):
        change_peers(station, without_link(content_of(station.at("peers")), {link, address}))
    Nodes(station).remove(address)
    waiting = waiting_for(station, address)
    if waiting:
        station.say("%d packets wait for %s" % (waiting, address))
    return Status.GOOD
