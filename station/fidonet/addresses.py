"""Addresses zone:net/node.point."""
from __future__ import annotations

import re
from functools import lru_cache, total_ordering
from typing import Optional

GREATEST = 32767
MOST_KEPT = 1 << 14
FORM = re.compile(r"([0-9]{1,9}):([0-9]{1,9})/([0-9]{1,9})(?:\.([0-9]{1,9}))?")


@total_ordering
class Address:
    """A system, or a point of it. It is not changed."""

    __slots__ = ("zone", "net", "node", "point")

    def __init__(self, zone: int, net: int, node: int, point: int = 0) -> None:
        self.zone, self.net, self.node, self.point = zone, net, node, point

    def numbers(self) -> tuple[int, int, int, int]:
        """All its numbers, by which addresses are ordered."""
        return self.zone, self.net, self.node, self.point

    def __eq__(self, other: object) -> bool:
        return isinstance(other, Address) and self.numbers() == other.numbers()

    def __lt__(self, other: Address) -> bool:
        return self.numbers() < other.numbers()

    def __hash__(self) -> int:
        return hash(self.numbers())

    def __repr__(self) -> str:
        return "Address(%d, %d, %d, %d)" % self.numbers()

    def __str__(self) -> str:
        point = ".%d" % self.point if self.point else ""
        return "%d:%d/%d%s" % (self.zone, self.net, self.node, point)

    def with_point(self, point: int) -> Address:
        """A point of the same system."""
        return Address(self.zone, self.net, self.node, point)

    def boss(self) -> Address:
        """The system that a point belongs to."""
        return self.with_point(0)

    def place(self) -> tuple[int, int]:
        """Net and node, as SEEN-BY lines have them."""
        return self.net, self.node


@lru_cache(maxsize=MOST_KEPT)  # a link file names each link in many areas
def address_of(word: str, may_be_point: bool = False) -> Optional[Address]:
    """The address that a word is, or nothing."""
    found = FORM.fullmatch(word)
    if not found or (found[4] is not None and not may_be_point):
        return None
    zone, net, node, point = (int(part or 0) for part in found.groups())
    if not (zone and net) or max(zone, net, node, point) > GREATEST:
        return None
    return Address(zone, net, node, point)
