"""The run of `echonet why` as steps: which system posts or scans, which packet arrives where, and what becomes of it."""
from typing import NamedTuple, Optional

import nets
from nets import Address

Packet = tuple[Address, Address, frozenset[tuple[int, int]]]


class Step(NamedTuple):
    """A step: its line in the script, what happens in words, the system that acts, and the packets that move. A packet
    has its origin and its destination; `arrives` says whether it has arrived."""
    line: str
    words: str
    system: Address
    packets: tuple[tuple[Address, Address], ...]
    arrives: bool


class Run(NamedTuple):
    """The output of `why`, its steps, and the harm in words."""
    lines: tuple[str, ...]
    steps: tuple[Step, ...]
    harm: str


class Station:
    """A system of a run: its link file's AREA line or None, and what it knows of the one message."""

    def __init__(self, system: Address, line: Optional[nets.AreaLine]) -> None:
        self.system, self.line = system, line
        self.has, self.waits = False, False
        self.sender: Optional[Address] = None
        self.seen: frozenset[tuple[int, int]] = frozenset()

    def scan(self) -> list[Packet]:
        """The packets of a scan, ascending by destination."""
        if not self.waits or self.line is None:
            return []
        self.waits = False
        links = sorted(set(self.line.links))
        told = self.seen | {self.system[1:]} | {link[1:] for link in links}
        return [(self.system, link, told) for link in links if link != self.sender and link[1:] not in self.seen]

    def toss(self, packet: Packet) -> str:
        """What becomes of a received packet."""
        sender, _, seen = packet
        if self.line is None:
            return "which does not have the area"
        if sender not in self.line.links:
            return "which does not list %s, and does not file the message" % nets.shown(sender)
        if self.has:
            return "which has the message already"
        self.has, self.waits, self.sender, self.seen = True, True, sender, seen
        return "which files the message"


class Replay:
    """The stations of an area, and the packets in the order in which scans make them."""

    def __init__(self, area: nets.Area, files: list[nets.LinkFile], names: dict[Address, str]) -> None:
        self.names = names
        self.stations = [Station(file.system, file.areas.get(area.tag)) for file in files]
        self.stations += [Station(system, area.carriers[system][-1][1]) for system in area.verdict.assumed]
        self.packets: list[Packet] = []

    def named(self, system: Address) -> str:
        """An address with its name."""
        name = self.names.get(system)
        return "%s (%s)" % (nets.shown(system), name) if name else nets.shown(system)

    def step(self, line: str) -> Step:
        """Does a line of the script."""
        word, number = line.split(" ")[:2]
        if word == "DELIVER":
            return self.deliver(line, int(number))
        station = self.stations[int(number)]
        if word == "POST":
            station.has = station.waits = True
            return Step(line, "%s posts a message." % self.named(station.system), station.system, (), False)
        made = station.scan()
        first = len(self.packets)
        self.packets += made
        if not made:
            return Step(line, "%s scans, and makes no packet." % self.named(station.system), station.system, (), False)
        goals = ", ".join("packet %d for %s" % (at, self.named(goal)) for at, (_, goal, _) in enumerate(made, first))
        return Step(line, "%s scans. It makes %s." % (self.named(station.system), goals), station.system,
                    tuple((sender, goal) for sender, goal, _ in made), False)

    def deliver(self, line: str, number: int) -> Step:
        """A packet arrives at the first system with its address."""
        sender, goal, seen = self.packets[number]
        station = next((station for station in self.stations if station.system == goal), None)
        end = station.toss((sender, goal, seen)) if station else "which has no link file"
        return Step(line, "Packet %d arrives at %s, %s." % (number, self.named(goal), end), goal, ((sender, goal),), True)


def harm_in_words(line: str, names: dict[Address, str]) -> str:
    """The line of the harm as a sentence."""
    words = line[2:].split(" ")
    if line == "; no harm found":
        return "No run does harm."
    system = nets.shown(nets.address_in(words[0])) if ":" in words[0] else ""
    name = names.get(nets.address_in(words[0])) if system else None
    whom = "%s (%s)" % (system, name) if name else system
    if line.endswith(" times"):
        return "%s is sent the message %s times." % (whom, words[-2])
    if " is sent its own " in line:
        return "%s is sent its own message." % whom
    if " never gets " in line:
        return "%s never gets the message." % whom
    return "A packet with the message never arrives."


def run_of(area: nets.Area, files: list[nets.LinkFile], names: dict[Address, str], printed: str) -> Run:
    """The steps of the output of `why`."""
    lines = printed.splitlines()
    replay = Replay(area, files, names)
    steps = [replay.step(line) for line in lines if line and not line.startswith(";")]
    ends = [line for line in lines[1:] if line.startswith("; ") and
            (line.endswith((" times", " never comes to rest", "; no harm found")) or " is sent its own " in line or " never gets " in line)]
    return Run(tuple(lines), tuple(steps), harm_in_words(ends[-1], names) if ends else "")
