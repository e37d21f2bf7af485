"""How long `check` and `why` take on large nets, by processor time. Each net has a loop or, at its last system,
another fault. It is compared with the same net without the last links of the loop, or without the fault, where the
answer is yes. Each row has three figures: the yes of `check`, its no, and `why`. Each is the middle one of three
runs, which read the link files. The row also has the ratios of the others to the yes, and how many events the shown
run has.

Arguments: names of nets. The default is all but the rings, and of the `far` ones, whose run is as long as the net,
only those of 4,000 systems. ECHONET names the program, by default bin/echonet.
"""
import os
import shutil
import subprocess
import sys
import tempfile

TOP = os.path.dirname(os.path.dirname(os.path.abspath(__file__)))
sys.path.insert(0, os.path.join(TOP, "trials"))
import files
import nets


def tree(count):
    """The links of a tree: ten systems below each."""
    return [((number - 1) // 10, number) for number in range(1, count)]


def with_ring(links, count, at, size):
    """A ring of so many systems. The first is linked with `at`. It comes after the others. Also its last link."""
    ring = list(range(count, count + size))
    return links + [(at, count)] + list(zip(ring, ring[1:])), [(ring[-1], ring[0])]


def tree_with_ring(count, size):
    """A tree, and a ring at its last system: `count` systems in all."""
    rest = count - size
    return with_ring(tree(rest), rest, rest - 1, size)


def ring(count):
    """A chain whose ends are linked."""
    return [(number, number + 1) for number in range(count - 1)], [(count - 1, 0)]


def hubs(count):
    """Systems that are all linked with each other, a leaf at each, and a ring of four at the last leaf."""
    links = [(one, other) for one in range(count) for other in range(one)]
    links += [(hub, count + hub) for hub in range(count)]
    return with_ring(links, 2 * count, 2 * count - 1, 4)


def polygons(count):
    """So many full polygons of ten in a chain, and a ring of four at the last system."""
    links = [(9 * first + one, 9 * first + other) for first in range(count) for one in range(10) for other in range(one)]
    return with_ring(links, 9 * count + 1, 9 * count, 4)


def wheels(count):
    """So many triangles with a common system, and in each a ring of four with two further systems, its last link apart."""
    firsts = range(1, 4 * count, 4)
    links = [link for one in firsts for link in (
        (0, one), (0, one + 1), (one, one + 1), (one, one + 2), (one + 1, one + 3))]
    return links, [(one + 2, one + 3) for one in firsts]


NETS = {
    "tree-4": lambda: tree_with_ring(100000, 4),
    "tree-10": lambda: tree_with_ring(100000, 10),
    "tree-1000": lambda: tree_with_ring(100000, 1000),
    "hubs-50": lambda: hubs(50),
    "hubs-200": lambda: hubs(200),
    "hubs-400": lambda: hubs(400),
    "star": lambda: with_ring([(0, number) for number in range(1, 100000)], 100000, 0, 4),
    "polygons-444": lambda: polygons(444),
    "polygons-1778": lambda: polygons(1778),
    "polygons-11111": lambda: polygons(11111),
    "wheels-1000": lambda: wheels(1000),
    "wheels-10000": lambda: wheels(10000),
    "ring-1000": lambda: ring(1000),
    "ring-2000": lambda: ring(2000),
    "ring-4000": lambda: ring(4000),
}


def apart(links):
    """The last system and those that it lists no longer list each other."""
    for other in links[-1]:
        links[other].remove(len(links) - 1)
    links[-1].clear()


SHAPES = {
    "tree": lambda: nets.linked(100000, tree(100000)),
    "chain": lambda: nets.chain(100000),
    "star": lambda: nets.star(80000),
    "chain4000": lambda: nets.chain(4000),
    "star4000": lambda: nets.star(4000),
}
# The last system lists itself; an address without a file; no system, though it is listed; the second system.
FAULTS = {
    "self": lambda links: links[-1].append(len(links) - 1),
    "unknown": lambda links: links[-1].append(len(links)),
    "side": lambda links: links[-1].clear(),
    "apart": apart,
    "far": lambda links: links[-1].append(1),
}


def middle(wanted, *words):
    """The middle one of some runs, by its processor time, in seconds."""
    runs = files.runs(wanted, files.PROGRAM, *words)
    return runs[len(runs) // 2][0]


def pair(name):
    """What each system of the net lists without the fault, and with it."""
    if name in NETS:
        links, last = NETS[name]()
        count = 1 + max(map(max, links))
        return nets.linked(count, links), nets.linked(count, links + last)
    shape, fault = name.split("-")
    good, bad = SHAPES[shape](), SHAPES[shape]()
    FAULTS[fault](bad)
    return good, bad


def measure(name, folder):
    """Prints the figures of a net."""
    good, bad = pair(name)
    names = files.put_net(folder, good)
    yes = middle(0, "check", "--links-from", names, "TEST")
    names = files.put_net(folder, bad)
    no = middle(1, "check", "--links-from", names, "TEST")
    words = "why", "--links-from", names, "TEST"
    why = middle(1, *words)
    shown = subprocess.run([files.PROGRAM, *words], stdout=subprocess.PIPE, check=False).stdout.splitlines()
    events = sum(not line.startswith(b";") for line in shown)
    print("%-14s %7d systems %7d links  yes %7.3f s, no %7.3f s (%4.1f), why %7.3f s (%4.1f), %d events" % (
        name, len(bad), sum(map(len, bad)) // 2, yes, no, no / yes, why, why / yes, events), flush=True)


def main(words):
    """Measures the nets of these names."""
    top = tempfile.mkdtemp(dir="/dev/shm" if os.path.isdir("/dev/shm") else None)
    try:
        others = ["%s-%s" % (shape, fault) for shape in SHAPES for fault in FAULTS if (fault == "far") == shape.endswith("4000")]
        for name in words or [name for name in NETS if not name.startswith("ring")] + others:
            measure(name, os.path.join(top, "net"))
    finally:
        shutil.rmtree(top)


if __name__ == "__main__":
    main(sys.argv[1:])
