"""How long commands take for link files and for scripts: processor time of three runs, and the most memory. The
yardstick is `cat` over the same files.

Arguments: pairs of a name and a size, by default those of SIZES. ECHONET names the program, by default bin/echonet.

    star, chain, tree, polygons   `check` of a net of so many systems, a tree of ten, a chain of polygons of ten
    polygon                       `check` of so many systems that are all linked with each other
    areas, links                  `links` of a link file of so many areas, of one area of so many links
    again                         `replay` of one packet of a thousand messages, that is tossed so many times
    postings                      `replay` of so many postings at one system
    rounds                        `replay` of so many messages through a tree of ten of 1,000 systems
"""
import os
import shutil
import sys
import tempfile

TOP = os.path.dirname(os.path.dirname(os.path.abspath(__file__)))
sys.path.insert(0, os.path.join(TOP, "trials"))
import nets
from lib import making, running
from lib.contents import write

PROGRAM = os.environ.get("ECHONET", os.path.join(TOP, "bin", "echonet"))
ROUNDS = 3
SIZES = ["star", 100000, "chain", 100000, "tree", 100000, "polygons", 100000, "polygon", 2000, "areas", 40000,
         "links", 80000, "again", 1, "again", 100000, "postings", 100000, "rounds", 1000]


def put_net(folder, links):
    """Writes the link files of a net, and a list of their paths. Returns the list."""
    names, _ = nets.write_net(folder, links)
    paths = [os.path.join(folder, name) for name in names]
    return write(os.path.join(folder, "names"), "".join(path + "\n" for path in paths).encode())


def runs(wanted, *words):
    """The seconds of processor time and the kilobytes of some runs, in order."""
    ended = [running.measured(words) for _ in range(ROUNDS)]
    for status, _, _, fault in ended:
        if status != wanted:
            raise SystemExit("%s ended with %d, %s" % (words[:2], status, fault))
    return sorted((seconds, kilobytes) for _, seconds, kilobytes, _ in ended)


def tree(count):
    """The links of a tree: ten systems below each."""
    return nets.linked(count, (((number - 1) // 10, number) for number in range(1, count)))


def polygon(count):
    """The links of systems that are all linked with each other."""
    return nets.linked(count, ((one, other) for one in range(count) for other in range(one)))


def check(make):
    """The yardstick and the command of a row for such nets."""
    def row(top, size):
        names = put_net(os.path.join(top, "net"), make(size))
        return ["xargs", "-a", names, "cat"], [PROGRAM, "check", "--links-from", names, "TEST"]
    return row


def links(areas_of):
    """Those of a row for one link file with such areas."""
    def row(top, size):
        path = write(os.path.join(top, "one.links"), making.link_file(nets.address(0), areas_of(size)))
        return ["cat", path], [PROGRAM, "links", path]
    return row


def replay(systems, lines_of):
    """Those of a row for such a script, on a tree of ten."""
    def row(top, size):
        names = put_net(os.path.join(top, "net"), tree(systems))
        script = write(os.path.join(top, "script"), "".join(lines_of(size)).encode())
        return ["cat", script], [PROGRAM, "replay", "--links-from", names, script]
    return row


def postings(count):
    """So many postings at the first system."""
    return ["POST 0 TEST %08x\n" % serial for serial in range(1, count + 1)]


def again(times):
    """The lines of a packet that is tossed so many times."""
    return postings(1000) + ["SCAN 0\n"] + ["DELIVER 0\n"] * times


def rounds(messages):
    """Postings, each passed on by all of a thousand systems. The packet to a system follows the packet to the system
    before it."""
    for message, posting in enumerate(postings(messages)):
        yield posting + "SCAN 0\n"
        for system in range(1, 1000):
            yield "DELIVER %d\nSCAN %d\n" % (999 * message + system - 1, system)


ROWS = {
    "star": check(nets.star), "chain": check(nets.chain), "tree": check(tree), "polygons": check(nets.polygons),
    "polygon": check(polygon),
    "areas": links(lambda count: [("AREA.%d" % number, [nets.address(1)]) for number in range(count)]),
    "links": links(lambda count: [("TEST", [nets.address(number) for number in range(1, count + 1)])]),
    "again": replay(2, again), "postings": replay(1, postings), "rounds": replay(1000, rounds)}


def main(words):
    """Measures the rows of these names and sizes."""
    words = words or SIZES
    for name, size in zip(words[::2], words[1::2]):
        top = tempfile.mkdtemp()
        try:
            yardstick, command = ROWS[name](top, int(size))
            for what, line in ("cat", yardstick), (command[1], command):
                taken = runs(0, *line)
                print("%-8s %8s  %-6s %8.3f to %8.3f s, %9d kB" % (
                    name, size, what, taken[0][0], taken[-1][0], max(kilobytes for _, kilobytes in taken)), flush=True)
        finally:
            shutil.rmtree(top)


if __name__ == "__main__":
    main(sys.argv[1:])
