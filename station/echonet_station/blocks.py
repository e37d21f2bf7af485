"""The block of a link: the systems on a ring through it."""
from __future__ import annotations

from fidonet.addresses import Address

Links = dict[Address, set[Address]]


def block_of(links: Links, one: Address, other: Address) -> set[Address]:
    """The systems of the block that a link between two systems is in: both, and all that lie on a way from one to the
    other that meets no system twice. Each link is noted at both its systems."""
    order, low = {one: 0, other: 1}, {one: 0, other: 1}
    open_systems, way = [other], [(other, one, iter(sorted(links[other])))]
    while True:
        system, before, rest = way[-1]
        for found in rest:
            if found not in order:
                order[found] = low[found] = len(order)
                open_systems.append(found)
                way.append((found, system, iter(sorted(links[found]))))
                break
            if found != before:
                low[system] = min(low[system], order[found])
        else:
            way.pop()
            if not way:
                return {one, *open_systems}
            low[before] = min(low[before], low[system])
            if low[system] >= order[before]:  # a block of its own ends here
                while open_systems.pop() != system:
                    pass
