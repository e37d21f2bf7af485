"""Subscriptions in all small nets: refused where a ring would close, and nowhere else. The judge is the definition."""
import itertools
import os
import unittest

import build
from echonet_station.judging_links import Judge
from echonet_station.station import Station
from fidonet.addresses import Address

HUB, ASKER, THIRD, FOURTH = SYSTEMS = tuple(Address(2, 5020, node) for node in (100, 200, 1, 5))
Net = frozenset  # of pairs: the first lists the second


def full_links(net: Net) -> set:
    """The pairs of which each lists the other."""
    return {frozenset(pair) for pair in net if (pair[1], pair[0]) in net}


def ways(net: set, here: Address, there: Address, met: tuple = ()) -> list:
    """All ways from one system to another that meet no system twice."""
    met = (*met, here)
    if here == there:
        return [met]
    found = [other for other in SYSTEMS if frozenset((here, other)) in net and other not in met]
    return [way for other in found for way in ways(net, other, there, met)]


def would_loop(net: Net) -> bool:
    """Whether the block of the new link has two systems without a full link, once both ends list each other."""
    links = full_links(net | {(HUB, ASKER), (ASKER, HUB)})
    block = {HUB, ASKER}.union(*ways(links - {frozenset((HUB, ASKER))}, HUB, ASKER))
    return any(frozenset(pair) not in links for pair in itertools.combinations(block, 2))


def all_nets() -> list:
    """All sets of listings in which the hub does not list the asker."""
    pairs = [pair for pair in itertools.permutations(SYSTEMS, 2) if pair != (HUB, ASKER)]
    return [Net(it for number, it in enumerate(pairs) if bits >> number & 1) for bits in range(1 << len(pairs))]


class Small(build.StationCase):
    """An area for each net."""

    def file(self, owner: Address, nets: list, carriers=lambda net: True) -> bytes:
        """The link file of a system, with an area for each net."""
        lines = [b"SYSTEM %s" % str(owner).encode()]
        for number, net in enumerate(nets):
            links = [str(other) for one, other in sorted(net) if one == owner]
            if links or carriers(net):
                lines.append(" ".join(["AREA", "T%d" % number, *links]).encode())
        return b"\n".join(lines) + b"\n"

    def refusals(self, nets: list, without=()) -> set[int]:
        """The numbers of the nets in which the subscription is refused. Some systems have no file."""
        for owner in SYSTEMS:
            path = "links" if owner == HUB else "net/%d" % owner.node
            self.put(path, self.file(owner, nets))
            if owner in without:
                os.unlink(self.at(path))
        station = Station(self.top)
        station.load()
        found = Judge(station).refusals(self.content("links"), ASKER, ["T%d" % number for number in range(len(nets))])
        self.assertTrue(all(refusal.loop for refusal in found.values()))
        for tag, refusal in found.items():
            self.check_loop(nets[int(tag[1:])], refusal, without)
        return {int(tag[1:]) for tag in found}

    def check_loop(self, net: Net, refusal, without) -> None:
        """The named systems are a ring, and the system beside the asker is not the hub."""
        beside = refusal.beside(ASKER, HUB)
        self.assertIn(beside, refusal.loop)
        self.assertNotIn(beside, (ASKER, HUB))
        self.assertEqual(len(set(refusal.loop)), len(refusal.loop))
        self.assertTrue(str(refusal).startswith("would loop: "))

    def as_assumed(self, net: Net, without) -> Net:
        """The net in which each system without a file lists those that list it."""
        kept = {pair for pair in net if pair[0] not in without}
        return Net(kept | {(other, one) for one, other in kept if other in without})

    def chosen(self, step: int, without=()) -> list:
        """All nets in which a ring closes, and some of the others."""
        nets = all_nets()
        loops = [net for net in nets if would_loop(self.as_assumed(net, without))]
        return loops + [net for net in nets[::step] if net not in loops]

    def test_whole_files(self):
        nets = all_nets()
        self.assertEqual(self.refusals(nets), {number for number, net in enumerate(nets) if would_loop(net)})

    def test_some_without_files(self):
        for without in ((ASKER,), (THIRD,), (ASKER, FOURTH)):
            nets = self.chosen(11, without)
            wanted = {number for number, net in enumerate(nets) if would_loop(self.as_assumed(net, without))}
            self.assertEqual(self.refusals(nets, without), wanted, without)

    def test_there_are_both(self):
        loops = sum(map(would_loop, all_nets()))
        self.assertEqual((loops, len(all_nets())), (66, 2048))


if __name__ == "__main__":
    unittest.main()
