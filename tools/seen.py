"""The links that messages took: collects them from PATH lines, finds the zones of their nets, and writes link files."""
import hashlib
from collections import Counter
from typing import Iterable, NamedTuple, Optional

from fidonet import echomail

MOST_OF_A_NUMBER = 32767
MOST_OF_A_FILE = 1048576
MOST_PATHS = 10000

Address = tuple[int, int, int]
# An entry of PATH is net * 65536 + node. An address that was given has its zone above these.
Pair = tuple[int, int]
Way = tuple[int, ...]


class Known(NamedTuple):
    """What is known of a link: how many messages took it, and the day of the last one, or nothing."""
    messages: int
    last: str


def shown(address: Address) -> str:
    """An address as text."""
    return "%d:%d/%d" % address


def is_address(net: int, node: int) -> bool:
    """Whether a link file may have this net and node."""
    return 1 <= net <= MOST_OF_A_NUMBER and node <= MOST_OF_A_NUMBER


class AreaWays:
    """The ways of the messages of an area. A way is a set of links: their numbers, ascending. Ways have numbers too."""

    def __init__(self) -> None:
        self.link_numbers: dict[Pair, int] = {}
        self.way_numbers: dict[Way, int] = {}
        self.ways: list[Way] = []
        self.last: list[str] = []
        self.by_path: dict[tuple[bytes, int], int] = {}
        self.taken: dict[bytes, int] = {}

    def number_of(self, way: Way) -> int:
        """The number of a way."""
        number = self.way_numbers.setdefault(way, len(self.ways))
        if number == len(self.ways):
            self.ways.append(way)
            self.last.append("")
        return number

    def links_number(self, pairs: Iterable[Pair]) -> int:
        """The number of the way with these links."""
        numbers = self.link_numbers
        return self.number_of(tuple(sorted({numbers.setdefault(pair, len(numbers)) for pair in pairs})))

    def take(self, identity: bytes, way: int, day: str) -> None:
        """Adds a copy of a message. Its links count once, whatever copies show them."""
        digest = hashlib.blake2b(identity, digest_size=16).digest()
        before = self.taken.setdefault(digest, way)
        if before != way:
            self.taken[digest] = self.number_of(tuple(sorted({*self.ways[before], *self.ways[way]})))
        if day > self.last[way]:
            self.last[way] = day


class Seen:
    """The links of all areas, and the zones in which sources name nets."""

    def __init__(self, owns: Iterable[Address]) -> None:
        self.areas: dict[str, AreaWays] = {}
        self.named: dict[int, set[int]] = {}
        self.owns: dict[int, set[Address]] = {}
        self.no_addresses: set[tuple[int, int]] = set()
        for own in owns:
            self.owns.setdefault(own[1] << 16 | own[2], set()).add(own)

    def name(self, zone: int, net: int) -> None:
        """Notes that a source names a net in a zone."""
        if 1 <= zone <= MOST_OF_A_NUMBER and 1 <= net <= MOST_OF_A_NUMBER:
            self.named.setdefault(net, set()).add(zone)

    def add(self, area: str, identity: bytes, path: bytes, day: str, own: Optional[Address]) -> None:
        """Adds a message that went along a path to the own system."""
        ways = self.areas.get(area) or self.areas.setdefault(area, AreaWays())
        place = 0 if own is None else own[0] << 32 | own[1] << 16 | own[2]
        way = ways.by_path.get((path, place))
        if way is None:
            if len(ways.by_path) > MOST_PATHS:
                ways.by_path.clear()
            way = ways.by_path[path, place] = ways.links_number(self.links_of(path, place))
        ways.take(identity, way, day)

    def links_of(self, path: bytes, own: int) -> set[Pair]:
        """The links between the neighbours of a path, and to the own system from its last entry."""
        stops, links, before = [], set(), 0
        for line in path.split(b"\r"):
            for net, node in echomail.entries_of(line):
                if is_address(net, node):
                    stops.append(net << 16 | node)
                else:
                    self.no_addresses.add((net, node))
                    stops.append(0)
        if own:
            stops.append(own)
        for stop in stops:
            if before and stop and (before ^ stop) & 0xffffffff:
                links.add((before, stop) if before < stop else (stop, before))
            before = stop
        return links


class Zones:
    """The zone of each net of a path: the one in which sources name it, else the given one, else that of the first own
    system. `doubts` has a line for each net that has not just one name."""

    def __init__(self, seen: Seen, given: Optional[int], first_own: Optional[Address]) -> None:
        self.seen, self.default = seen, given or (first_own and first_own[0])
        self.found: dict[int, Optional[int]] = {}
        self.doubts: dict[int, str] = {}

    def zone_of(self, net: int) -> Optional[int]:
        """The zone of a net."""
        if net not in self.found:
            named = self.seen.named.get(net, set())
            self.found[net] = next(iter(named)) if len(named) == 1 else self.default
            if len(named) != 1:
                where = "zones " + " ".join(str(zone) for zone in sorted(named)) if named else "no zone"
                then = "taken as zone %d" % self.default if self.default else "left out: give --zone"
                self.doubts[net] = "net %d is named in %s, %s" % (net, where, then)
        return self.found[net]

    def address_of(self, stop: int) -> Optional[Address]:
        """The address of an entry of a path, or of a given one."""
        own = self.seen.owns.get(stop)
        if stop >> 32:
            return stop >> 32, stop >> 16 & 0xffff, stop & 0xffff
        if own and len(own) == 1:
            return next(iter(own))
        zone = self.zone_of(stop >> 16)
        return (zone, stop >> 16, stop & 0xffff) if zone else None

    def link_of(self, pair: Pair) -> Optional[tuple[Address, Address]]:
        """A link by its addresses."""
        one, other = (self.address_of(stop) for stop in pair)
        return (min(one, other), max(one, other)) if one and other else None


def links_in(ways: AreaWays, zones: Zones) -> dict[tuple[Address, Address], Known]:
    """The links of an area. Two pairs of one way may be one link, and count once."""
    messages: Counter[tuple[Address, Address]] = Counter()
    last: dict[tuple[Address, Address], str] = {}
    found = [zones.link_of(pair) for pair in ways.link_numbers]
    many = Counter(ways.taken.values())
    for number, way in enumerate(ways.ways):
        count, day = many[number], ways.last[number]
        for link in {found[pair] for pair in way}:
            if link:
                messages[link] += count
                last[link] = max(last.get(link, ""), day)
    return {link: Known(count, last[link]) for link, count in messages.items()}


def files_of(areas: dict[str, dict[tuple[Address, Address], Known]], least: int) -> dict[Address, dict[str, dict[Address, Known]]]:
    """The areas and links of each system, without links that fewer messages took."""
    files: dict[Address, dict[str, dict[Address, Known]]] = {}
    for area, links in areas.items():
        for (one, other), known in links.items():
            if known.messages >= least:
                files.setdefault(one, {}).setdefault(area, {})[other] = known
                files.setdefault(other, {}).setdefault(area, {})[one] = known
    return files


def lines_of_file(system: Address, areas: dict[str, dict[Address, Known]], commented: bool) -> str:
    """A link file. Before an AREA line a comment for each link says how many messages took it."""
    lines = ["SYSTEM " + shown(system)]
    for area, links in sorted(areas.items()):
        if commented:
            lines += ["; %s %d messages, last %s" % (shown(link), known.messages, known.last or "unknown")
                      for link, known in sorted(links.items())]
        lines.append(" ".join(["AREA", area] + [shown(link) for link in sorted(links)]))
    return "".join(line + "\n" for line in lines)


def link_file(system: Address, areas: dict[str, dict[Address, Known]]) -> str:
    """The link file of a system, without comments if it is too large with them."""
    whole = lines_of_file(system, areas, True)
    return whole if len(whole) <= MOST_OF_A_FILE else lines_of_file(system, areas, False)
