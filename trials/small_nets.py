"""Compares the verdicts of `check --more` on all small nets with the definitions, which it tries one by one: parts are those
of ties, blocks those of full links, whatever else is wrong. Each net is an area of the same systems, and `check --all
--more` judges thousands of them in one run. The nets are:
- all link files of four systems
- all of three systems of which two have one net and node, with an address that has no file
- each graph of at most five systems
- two polygons of four with a common system, with up to one of their links left out, under three numberings
- random graphs of seven systems

Arguments: a part from 0 on and the number of parts, to try only the nets of this part.
"""
import functools
import itertools
import os
import random
import subprocess
import sys
import tempfile
from typing import NamedTuple

from lib.contents import PROGRAM

MOST_AREAS = 16000  # a link file has at most 1,048,576 bytes
FOUR = ("1:10/1", "1:10/2", "1:10/3", "1:10/4")
TWINS = ("1:10/1", "1:10/2", "2:10/1", "2:10/9")
SEVEN = tuple("1:10/%d" % node for node in range(1, 8))
PAIR_FAULTS = ("V3 SelfLink", "V4 Unknown", "V5 OneSided", "V6 SameNetNode")
CHAINED = [pair for first in (0, 3) for pair in itertools.combinations(range(first, first + 4), 2)]


class Area(NamedTuple):
    """The addresses, ascending, and what each system lists, by their numbers: None if it lacks the area."""
    addresses: tuple
    lists: tuple

    @functools.lru_cache(maxsize=1024)
    def carriers(self):
        """The systems that have the area."""
        return [one for one, listed in enumerate(self.lists) if listed is not None]

    def has(self, one, other):
        """Whether one lists the other."""
        return one < len(self.lists) and self.lists[one] is not None and other in self.lists[one]

    def linked(self, one, other):
        """Whether two different systems list each other: a full link."""
        return one != other and self.has(one, other) and self.has(other, one)

    def tied(self, one, other):
        """Whether at least one of two different carriers lists the other: a tie."""
        both = one in self.carriers() and other in self.carriers()
        return one != other and both and (self.has(one, other) or self.has(other, one))

    def part(self, start):
        """The carriers that ties, one after another, join with this one, and itself."""
        found = [start]
        for here in found:
            found += [other for other in self.carriers() if self.tied(here, other) and other not in found]
        return found

    def same_net_node(self, one, other):
        """Whether two carriers differ only in the zone."""
        near = self.addresses[one].split(":")[1] == self.addresses[other].split(":")[1]
        return one < other and near and one in self.carriers() and other in self.carriers()

    def is_wrong(self, fault, one, other):
        """Whether these two have this fault."""
        if fault == "V3 SelfLink":
            return one == other and self.has(one, one)
        if fault == "V4 Unknown":
            return self.has(one, other) and other not in self.carriers()
        if fault == "V5 OneSided":
            return self.has(one, other) and other in self.carriers() and not self.has(other, one)
        return self.same_net_node(one, other)

    @functools.lru_cache(maxsize=1024)
    def reached(self, start, without=None):
        """How many links away each system is that a walk from `start` reaches without passing `without`."""
        found, left = {start: 0}, [start]
        for here in left:
            for other in self.carriers():
                if self.linked(here, other) and other not in found and other != without:
                    found[other] = found[here] + 1
                    left.append(other)
        return found

    def in_one_block(self, link, other):
        """Whether no system separates two links: without any one, a walk joins the rest of both."""
        for without in self.carriers():
            ends = [one for one in link if one != without]
            if not any(one in self.reached(ends[0], without) for one in other if one != without):
                return False
        return True

    def pinches(self):
        """Systems with two links that are not linked, although a walk around the system joins them, ascending."""
        for middle in self.carriers():
            for one, other in itertools.combinations([near for near in self.carriers() if self.linked(middle, near)], 2):
                if not self.linked(one, other) and other in self.reached(one, middle):
                    yield middle, one, other

    def loop(self, middle, one, other):
        """The loop of a pinch: the least of the shortest walks around it, from its smallest system to the smaller
        neighbour."""
        away = self.reached(other, middle)
        ring = [middle, one]
        while ring[-1] != other:
            ring.append(min(near for near in self.carriers() if self.linked(ring[-1], near) and away.get(near) == away[ring[-1]] - 1))
        at = ring.index(min(ring))
        ring = ring[at:] + ring[:at]
        return ring if ring[1] < ring[-1] else ring[:1] + ring[:0:-1]

    def loops(self):
        """The loop of each block that has one, by the first pinches of the blocks."""
        firsts = []
        for middle, one, other in self.pinches():
            if not any(self.in_one_block((middle, one), first[:2]) for first in firsts):
                firsts.append((middle, one, other))
                yield self.loop(middle, one, other)

    def named(self, systems):
        """Systems as their addresses, a repeated one once."""
        return " ".join(self.addresses[one] for one in dict.fromkeys(systems))

    def faults(self):
        """All faults in the order of the verdicts."""
        pairs = list(itertools.product(range(len(self.addresses)), repeat=2))
        found = ["%s %s" % (fault, self.named(pair)) for fault in PAIR_FAULTS for pair in pairs if self.is_wrong(fault, *pair)]
        carriers = self.carriers()
        starts = [one for one in carriers if one == min(self.part(one))]
        found += ["V7 Apart " + self.named((carriers[0], one)) for one in starts[1:]]
        return found + ["V8 Loop " + self.named(loop) for loop in self.loops()]

    def verdict(self, tag):
        """The output of `check --more`."""
        found = self.faults()
        if found:
            return ["no %s %s" % (tag, found[0])] + ["also " + fault for fault in found[1:]]
        links = sum(self.linked(*pair) for pair in itertools.combinations(self.carriers(), 2))
        return ["yes %s %d systems %d links" % (tag, len(self.carriers()), links)]


def all_files(addresses, systems):
    """All link files of so many systems: each lists some of the addresses, or lacks the area."""
    some = [None] + [frozenset(chosen) for size in range(5) for chosen in itertools.combinations(range(4), size)]
    for lists in itertools.product(some, repeat=systems):
        if any(listed is not None for listed in lists):
            yield Area(addresses, lists)


def graph(addresses, members, pairs):
    """The area where exactly these are linked."""
    lists = [frozenset(b if a == one else a for a, b in pairs if one in (a, b)) for one in range(members)]
    return Area(addresses, tuple(lists))


def all_graphs():
    """Each graph of at most five systems."""
    for members in range(1, 6):
        every = list(itertools.combinations(range(members), 2))
        for chosen in itertools.product((False, True), repeat=len(every)):
            yield graph(SEVEN, members, list(itertools.compress(every, chosen)))


def chained_polygons():
    """Two polygons of four with a common system, with up to one link left out, numbered in three ways."""
    for factor in (1, 3, 5):
        numbered = [tuple(sorted((one * factor % 7, other * factor % 7))) for one, other in CHAINED]
        for left_out in [None, *numbered]:
            yield graph(SEVEN, 7, [pair for pair in numbered if pair != left_out])


def chance_graphs(count):
    """Graphs of seven systems, each link with the same probability."""
    chance = random.Random(7)
    every = list(itertools.combinations(range(7), 2))
    for _ in range(count):
        often = chance.random()
        yield graph(SEVEN, 7, [pair for pair in every if chance.random() < often])


def judged(areas, folder):
    """The output of `check --all --more` for these areas, which have the same addresses, by their tags."""
    systems = max(len(area.lists) for area in areas)
    for system in range(systems):
        with open(os.path.join(folder, "%d.links" % system), "w", encoding="ascii") as file:
            file.write("SYSTEM %s\n" % areas[0].addresses[system])
            for number, area in enumerate(areas):
                if system < len(area.lists) and area.lists[system] is not None:
                    listed = "".join(" " + area.addresses[other] for other in sorted(area.lists[system]))
                    file.write("AREA N%d%s\n" % (number, listed))
    names = [os.path.join(folder, "%d.links" % system) for system in reversed(range(systems))]
    ended = subprocess.run([PROGRAM, "check", "--all", "--more", *names], capture_output=True, check=False, text=True)
    said, lines = {}, []
    for line in ended.stdout.splitlines()[:-1]:
        if not line.startswith("also "):
            lines = said.setdefault(line.split(" ")[1], [])
        lines.append(line)
    return said, ended.stderr


def differ(areas, folder):
    """How many of the areas have an answer that differs from the definitions. Prints the first ones."""
    wrong = 0
    for begins in range(0, len(areas), MOST_AREAS):
        batch = areas[begins:begins + MOST_AREAS]
        said, fault = judged(batch, folder)
        for number, area in enumerate(batch):
            tag = "N%d" % number
            wanted = area.verdict(tag)
            if said.get(tag) != wanted or fault or len(said) != len(batch):
                wrong += 1
                if wrong <= 5:
                    print(area, said.get(tag), fault.strip(), "in place of", wanted)
    return wrong


def main():
    """Tries all nets of the part. Prints a line for each kind, and a last one with the counts."""
    kinds = [("four systems", list(all_files(FOUR, 4))), ("twins and an address without a file", list(all_files(TWINS, 3))),
             ("graphs of at most five", list(all_graphs())), ("polygons in a chain", list(chained_polygons())),
             ("graphs of seven", list(chance_graphs(2000)))]
    part, parts = (int(word) for word in sys.argv[1:] or ("0", "1"))
    tried = wrong = 0
    with tempfile.TemporaryDirectory() as folder:
        for name, areas in kinds:
            areas = areas[part::parts]
            failed = differ(areas, folder)
            print("%s: %d nets, %d answered otherwise" % (name, len(areas), failed))
            tried, wrong = tried + len(areas), wrong + failed
    print("small_nets.py: %d passed, %d failed" % (tried - wrong, wrong))
    return wrong > 0


if __name__ == "__main__":
    sys.exit(main())
