"""Small random nets: systems with different addresses, and the links of each area. About half of the areas are trees
of polygons, which are in order. The others have rings, links that one side does not list, links to addresses without
a system, links to the system itself, or parts that no walk joins.
"""

TAGS = ("TEST", "FIDO.NET", "R")
NOWHERE = (1, 10, 99)
NAMES = (None, "Alpha", "", "A board * Origin: of (1:2/3) ", "x" * 40)


def addresses(chance, count):
    """So many different addresses, some of them with one net and node in two zones."""
    found = []
    while len(found) < count:
        address = (chance.choice((1, 1, 1, 2)), chance.choice((10, 10, 20, 32767)), chance.choice((0, 1, 2, 3, 4, 32767)))
        if address not in found:
            found.append(address)
    return found


def tree_of_polygons(chance, members):
    """Pairs of a tree whose branches are polygons: each polygon begins at an existing system."""
    pairs, linked, left = set(), [members[0]], list(members[1:])
    while left:
        size = min(len(left), chance.choice((1, 1, 1, 2, 3)))
        polygon = [chance.choice(linked)] + left[:size]
        left = left[size:]
        linked += polygon[1:]
        pairs |= {(one, other) for one in polygon for other in polygon if one != other}
    return pairs


def any_pairs(chance, members):
    """Random pairs, both ways."""
    density = chance.choice((0.2, 0.5, 0.8))
    pairs = {(one, other) for one in members for other in members if one < other and chance.random() < density}
    return pairs | {(other, one) for one, other in pairs}


def ring(_, members):
    """Each with the next one."""
    pairs = set(zip(members, members[1:] + members[:1]))
    return {pair for one, other in pairs for pair in ((one, other), (other, one)) if one != other}


def spoiled(chance, members, pairs):
    """The same with one thing wrong."""
    change = chance.choice(("one side", "nowhere", "itself", "apart"))
    if change == "one side" and pairs:
        return pairs - {chance.choice(sorted(pairs))}
    if change == "nowhere":
        return pairs | {(chance.choice(members), NOWHERE)}
    if change == "itself":
        return pairs | {(members[0],) * 2}
    alone = members[-1]
    return {pair for pair in pairs if alone not in pair}


def area(chance, systems):
    """The carriers of an area and their links, as pairs."""
    members = chance.sample(systems, chance.randint(min(2, len(systems)), len(systems)))
    kind = chance.choice((tree_of_polygons, tree_of_polygons, tree_of_polygons, any_pairs, ring))
    pairs = kind(chance, members)
    if chance.random() < 0.25:
        pairs = spoiled(chance, members, pairs)
    return members, pairs


def net(chance):
    """The systems of a net: each its address, its name or None, and its areas with their links."""
    systems = addresses(chance, chance.randint(2, 6))
    areas = {tag: area(chance, systems) for tag in TAGS[:chance.randint(1, len(TAGS))]}
    told = []
    for system in systems:
        own = []
        for tag, (members, pairs) in areas.items():
            if system in members:
                links = [other for one, other in pairs if one == system]
                own.append((tag, chance.sample(sorted(links), len(links))))
        told.append((system, chance.choice(NAMES), chance.sample(own, len(own))))
    return told
