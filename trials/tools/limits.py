"""The limits of the tools: time, memory, and the size of a page.

links-seen reads a JAM base of 100,000 messages with long SEEN-BY and PATH lines. net-page makes the page of a thousand
systems and 300 areas, a third of them with a fault. Times are of processors. Arguments: how many messages, and how many
systems each area has (100).
"""
import os
import random
import sys
import tempfile

import fixtures
from lib import making, running, topologies

MOST_SECONDS, MOST_MEGABYTES = {"links-seen": 10, "net-page": 60}, {"links-seen": 200, "net-page": 2000}
MOST_OF_A_PAGE = 20_000_000


def used(tool, *words):
    """Runs a tool. Compares its seconds of processor time and its megabytes with the limits."""
    status, seconds, kilobytes, fault = running.measured([sys.executable, os.path.join(fixtures.TOOLS, tool), *words])
    line = "%s: status %d, %.1f s, %.0f MB" % (tool, status, seconds, kilobytes / 1024)
    print(line, flush=True)
    if status or seconds > MOST_SECONDS[tool] or kilobytes / 1024 > MOST_MEGABYTES[tool]:
        sys.exit("limits.py: %s, %s" % (line, fault))


def jam_base(chance, path, count):
    """A base whose messages have one of 2,000 paths."""
    nodes = ["5020/%d" % node for node in range(300)]
    paths = [" ".join(chance.sample(nodes, chance.randint(1, 9))) for _ in range(2000)]
    seen = tuple(" ".join(chance.sample(nodes, 10)) for _ in range(12))
    body = ("x" * 70,) * 14
    fixtures.jam_base(path, [fixtures.Mail("2:%s %08x" % (chance.choice(nodes), number), (chance.choice(paths),),
                                           "2026-07-%02d 12:00:00" % (number % 28 + 1), body, seen) for number in range(count)])


def net(chance, folder, carriers):
    """The files of a thousand systems. A third of the areas has one link in one direction, or a further link."""
    systems = [(2, 5000 + number // 100, number % 100 + 1) for number in range(1000)]
    areas = {system: [] for system in systems}
    for number in range(300):
        members = chance.sample(systems, carriers)
        pairs = topologies.tree_of_polygons(chance, members)
        if number % 3 == 0:
            one, other = sorted(pairs)[0] if number % 2 else chance.sample(members, 2)
            pairs = pairs - {(one, other)} if number % 2 else pairs | {(one, other), (other, one)}
        links = {}
        for one, other in pairs:
            links.setdefault(one, []).append(other)
        for system in members:
            areas[system].append(("AREA.%03d" % number, sorted(links.get(system, []))))
    return [fixtures.write(os.path.join(folder, "%d.%d.%d" % system), making.link_file(system, areas[system], "A board")) for system in systems]


def main():
    """Both tools."""
    count, carriers = [int(word) for word in sys.argv[1:3]] + [100_000, 100][len(sys.argv) - 1:]
    chance = random.Random(1)
    os.environ["ECHONET"] = fixtures.PROGRAM
    with tempfile.TemporaryDirectory() as place:
        jam_base(chance, os.path.join(place, "base"), count)
        used("links-seen", os.path.join(place, "seen"), "--own", "2:5020/1000", "jam:TEST:" + os.path.join(place, "base"))
    with tempfile.TemporaryDirectory() as place:
        page = os.path.join(place, "page.html")
        used("net-page", "--why", page, *net(chance, place, carriers))
        print("limits.py: a page of %d bytes" % os.path.getsize(page))
        if os.path.getsize(page) > MOST_OF_A_PAGE:
            sys.exit("limits.py: the page is too large")


if __name__ == "__main__":
    main()
