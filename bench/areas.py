"""How long `check --all` takes on a net of many areas, by processor time. The yardstick is one reading of its link
files: `check` of an area that no file has reads them all and judges nothing. Each area is a tree of all systems with
ten below each. The files are in no order. Then `--assume-missing` assumes each ninth system that is a leaf, without its
file.

Arguments: AREAS SYSTEMS (300 1000). ECHONET names the program, by default bin/echonet.
"""
import os
import random
import shutil
import sys
import tempfile

TOP = os.path.dirname(os.path.dirname(os.path.abspath(__file__)))
sys.path.insert(0, os.path.join(TOP, "trials"))
import files
from lib import making
import nets
from lib.contents import write


def put_net(folder, areas, count):
    """Writes the link files of the net, a list of their paths, and one without each ninth leaf. Returns the lists."""
    chosen = random.Random(1)
    paths, leaves = [], set()
    for number, others in enumerate(files.tree(count)):
        links = [nets.address(other) for other in others]
        tags = ["GROUP.AREA.%d" % area for area in range(areas)]
        chosen.shuffle(tags)
        path = os.path.join(folder, "%d.links" % number)
        paths.append(write(path, making.link_file(nets.address(number), [(tag, links) for tag in tags])))
        if number % 9 == 0 and len(links) == 1:
            leaves.add(path)
    chosen.shuffle(paths)
    return [write(os.path.join(folder, name), "".join(path + "\n" for path in paths if path not in left).encode())
            for name, left in (("names", ()), ("fewer", leaves))]


def seconds(wanted, *words):
    """The processor times of some runs in seconds, in order."""
    return [spent for spent, _ in files.runs(wanted, files.PROGRAM, *words)]


def main(words):
    """Measures a net of so many areas and systems."""
    areas, count = [int(word) for word in words] or (300, 1000)
    top = tempfile.mkdtemp(dir="/dev/shm" if os.path.isdir("/dev/shm") else None)
    try:
        names, fewer = put_net(top, areas, count)
        read = seconds(1, "check", "--links-from", names, "NONE")
        every = seconds(0, "check", "--all", "--links-from", names)
        print("%d areas of %d systems: read %.2f to %.2f s, check --all %.2f to %.2f s, %.1f times the reading" % (
            areas, count, read[0], read[-1], every[0], every[-1], every[len(every) // 2] / read[len(read) // 2]))
        assumed = seconds(0, "check", "--all", "--assume-missing", "--links-from", fewer)
        print("with --assume-missing %.2f to %.2f s" % (assumed[0], assumed[-1]))
    finally:
        shutil.rmtree(top)


if __name__ == "__main__":
    main(sys.argv[1:])
