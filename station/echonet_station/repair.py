"""A round of repair with the links: questions, answers, and what was new."""
from __future__ import annotations

from typing import Optional

from fidonet.addresses import Address, address_of

from .faults import Status, Stopped
from .lists import make_packet, send_packet
from .printing import shown_age, shown_path
from .rounds import Pair, Round
from .running import status_of_command
from .scan import scan
from .station import Station
from .toss import toss

ALL, AGAIN = "--all", "--again"
IN_ORDER = "in order"


def wanted_by(station: Station, words: list[str]) -> dict[str, list[Address]]:
    """The links of areas that the words name: tags, and addresses of links. Without words all."""
    links = {station.peers.fake_of.get(it, it) for it in (address_of(word, True) for word in words) if it}
    tags = {word.upper() for word in words if address_of(word, True) is None}
    for tag in tags - set(station.areas):
        raise Stopped(Status.COMMAND, "no area %s" % shown_path(tag))
    for link in links - station.links():
        raise Stopped(Status.COMMAND, "no link %s" % link)
    found = {}
    for tag, others in sorted(station.areas.items()):
        chosen = [link for link in others if not links or link in links]
        if chosen and (not tags or tag in tags):
            found[tag] = chosen
    if not found:
        raise Stopped(Status.COMMAND, "no links to repair with")
    return found


def send_all(pair: Pair) -> None:
    """Sends all to a link that did not answer."""
    sent = make_packet(pair.station, pair.link, pair.tag)
    send_packet(pair.station, pair.link, pair.packet)
    pair.station.note("sent all %d messages to %s, which did not answer" % (sent, pair.name))


def line_of(pair: Pair, age: str) -> Optional[str]:
    """Why a question is still open. Nothing, if it is not."""
    answer = pair.answer
    if answer is None:
        return "no answer, asked %s ago" % age
    if answer.messages and not pair.has_come():
        return "packet in bad" if pair.is_in_bad() else "waits for %d messages" % answer.messages
    return None


class Result:
    """What a round brought so far."""

    def __init__(self, round_: Round) -> None:
        self.round = round_
        self.new = self.lacking = 0
        self.silent: list[Pair] = []
        self.waiting: list[Pair] = []

    def look(self) -> None:
        """Prints a line for each question."""
        age = shown_age(self.round.age())
        for pair in self.round.pairs:
            line, answer = line_of(pair, age), pair.answer
            self.new += pair.filed
            if answer is None:
                self.silent.append(pair)
            elif line:
                self.waiting.append(pair)
            else:
                self.lacking += answer.lacking
                counts = (answer.messages, pair.filed, answer.sent, answer.lacking)
                line = "received %d, new %d; sent %d, lacking %d" % counts
            self.round.station.say("link %s: %s" % (pair.name, line))

    def is_open(self) -> bool:
        """Whether something is still to come."""
        return bool(self.silent or self.waiting)

    def ended(self) -> str:
        """The last line of a round that has ended."""
        lost = self.round.lost_bases()
        if lost:
            return "the base lost messages of %s in this round" % " ".join(map(shown_path, lost))
        if self.round.is_unsure():
            return "a toss was stopped in this round, so its counts may be too small"
        if self.silent:
            return "new %d, lacking %d; %d did not answer" % (self.new, self.lacking, len(self.silent))
        if self.waiting:
            return "new %d, lacking %d; %d on the way" % (self.new, self.lacking, len(self.waiting))
        if self.new or self.lacking:
            return "new %d, lacking %d" % (self.new, self.lacking)
        return IN_ORDER


def go_on(station: Station, with_all: bool) -> Status:
    """Looks at the open round, and ends it if nothing more is to come."""
    result = Result(Round(station))
    result.look()
    if with_all:
        for pair in result.silent:
            send_all(pair)
    elif result.is_open():
        station.say("open: %d without an answer, %d on the way" % (len(result.silent), len(result.waiting)))
        return Status.HAND
    line = result.ended()
    station.say(line)
    station.log("repair %s" % line)
    if line == IN_ORDER and result.round.has_all():
        station.disk.unlink(station.at("count"))  # it may post again, also if the base has fewer messages
    result.round.end()
    return Status.GOOD if line == IN_ORDER else Status.HAND


def begin(station: Station, words: list[str]) -> Status:
    """Begins a round."""
    round_ = Round(station)
    if round_.pairs:
        station.note("repair: the round was given up")
        round_.end()
    round_.begin(wanted_by(station, words))
    for pair in round_.pairs:
        pair.ask()
    station.say("open: %d questions" % len(round_.pairs))
    return Status.HAND


def step(station: Station, options: set[str], words: list[str]) -> Status:
    """Begins a round, or goes on with the open one."""
    station.lock("scan.lock")
    station.load()
    round_ = Round(station)
    if AGAIN in options or not round_.pairs:
        return begin(station, words)
    if words and {(pair.tag, pair.link) for pair in round_.pairs} != {
        (tag, link) for tag, links in wanted_by(station, words).items() for link in links
    }:
        raise Stopped(Status.COMMAND, "another round is open: see repair, or begin with repair --again")
    for pair in round_.pairs:
        pair.ask()
    return go_on(station, ALL in options)


def repair(station: Station, words: list[str]) -> int:
    """The command `repair`."""
    options = {word for word in words if word.startswith("--")}
    if options - {ALL, AGAIN} or len(options) > 1:
        raise Stopped(Status.COMMAND, "repair takes --all or --again")
    words = [word for word in words if word not in options]
    for run in (toss, scan):
        ended = status_of_command(run, station, is_quiet=True)
        if ended > Status.HAND:
            return ended
    status = step(station, options, words)
    station.unlock()
    return max(status, status_of_command(scan, station, is_quiet=True))
