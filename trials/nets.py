"""Tries `check` and `picture` on large nets, tidy ones and ones whose fault is hard to find, each at two sizes. The
greater size has twice the bytes of the other. The verdict has to be the one that the net was built for. Each run
takes at most 2.5 times the processor time at twice the bytes. Argument: how many systems the greater nets have
(20,000).
"""
import math
import os
import shutil
import sys
import tempfile

from lib import making, running
from lib.contents import PROGRAM, TOP

MOST_RATIO, LEAST_SECONDS = 2.5, 0.2


def address(number):
    """The address of a system."""
    return 1, 10 + number // 30000, 1 + number % 30000


def linked(count, pairs):
    """The links of each system, from pairs of systems."""
    links = [[] for _ in range(count)]
    for one, other in pairs:
        links[one].append(other)
        links[other].append(one)
    return links


def chain(count):
    """Each with the next one."""
    return linked(count, ((number, number + 1) for number in range(count - 1)))


def star(count):
    """All with the first."""
    return linked(count, ((0, number) for number in range(1, count)))


def tree(count):
    """Each with two below it."""
    return linked(count, (((number - 1) // 2, number) for number in range(1, count)))


def ring(count):
    """A chain whose ends are linked."""
    return linked(count, ((number, (number + 1) % count) for number in range(count)))


def ladder(count):
    """Two chains, each system of one with one of the other."""
    half = count // 2
    rungs = [(number, half + number) for number in range(half)]
    sides = [(side + number, side + number + 1) for side in (0, half) for number in range(half - 1)]
    return linked(2 * half, rungs + sides)


def polygons(count, broken=False):
    """Polygons of ten, each joined with the next one by a common system. The last may lack a link."""
    pairs = [(first + one, first + other) for first in range(0, count - 9, 9)
             for one in range(10) for other in range(one)]
    members = max(max(pair) for pair in pairs) + 1
    return linked(members, pairs[:-1] if broken else pairs)


def polygon(count, broken=False):
    """All with all, for so many systems that their links are about as many. One link may be missing."""
    size = int(math.sqrt(count))
    pairs = [(one, other) for one in range(size) for other in range(one)]
    return linked(size, pairs[:-1] if broken else pairs)


def hubs(count, ringed=False):
    """Systems that are all linked with each other, a leaf at each, and maybe a ring of four at the last leaf."""
    size = int(math.sqrt(count))
    pairs = [(one, other) for one in range(size) for other in range(one)] + [(hub, size + hub) for hub in range(size)]
    last = 2 * size
    ring = [(last - 1, last), (last, last + 1), (last + 1, last + 2), (last + 2, last - 1)]
    return linked(last + 3 if ringed else last, pairs + ring if ringed else pairs)


def one_sided(count):
    """A chain whose last system does not list the one before it."""
    links = chain(count)
    links[-1] = []
    return links


# The name, the links, and the beginning of the verdict.
NETS = [
    ("chain", chain, "yes TEST"), ("star", star, "yes TEST"), ("tree", tree, "yes TEST"), ("ring", ring, "no TEST V8"),
    ("ladder", ladder, "no TEST V8"), ("polygons", polygons, "yes TEST"),
    ("polygons, one broken", lambda count: polygons(count, True), "no TEST V8"), ("polygon", polygon, "yes TEST"),
    ("polygon, broken", lambda count: polygon(count, True), "no TEST V8"), ("one-sided", one_sided, "no TEST V5"),
    ("hubs", hubs, "yes TEST"), ("hubs, ring behind", lambda count: hubs(count, True), "no TEST V8"),
    ("no links", lambda count: [[] for _ in range(count)], "no TEST V7")]


def write_net(folder, links):
    """Writes the link files to the folder. Returns their names and how many bytes they have."""
    shutil.rmtree(folder, ignore_errors=True)
    os.makedirs(folder)
    names, size = [], 0
    for number, others in enumerate(links):
        content = making.link_file(address(number), [("TEST", [address(other) for other in sorted(others)])])
        names.append("%d" % number)
        size += len(content)
        with open(os.path.join(folder, names[-1]), "wb") as file:
            file.write(content)
    return names, size


def measure(make, count, command, folder):
    """The bytes of a net, and how the command ended on it."""
    names, size = write_net(folder, make(count))
    os.chdir(folder)
    ended = running.measured([PROGRAM, command, "TEST", *names])
    said = running.subprocess.run([PROGRAM, "check", "TEST", *names], capture_output=True, check=False).stdout \
        if command == "check" else b""
    os.chdir(TOP)
    return size, ended, said.decode()


def try_net(row, command, count, folder):
    """Tries a net, prints its line, and returns whether all held."""
    name, make, verdict = row

    def timed(count):
        size, ended, _ = measure(make, count, command, folder)
        return size, ended[1]

    size, (status, seconds, kilobytes, fault), said = measure(make, count, command, folder)
    wrong = [] if status == (0 if verdict.startswith("yes") else 1) and fault.startswith("0 lines") else ["not in order"]
    if command == "check" and not said.startswith(verdict):
        wrong.append("another verdict")
    ratio = 0.0
    if seconds > LEAST_SECONDS:
        half, shorter = timed(count // 2)
        ratio = seconds / shorter * 2 * half / size
    if ratio > MOST_RATIO:
        ratio = running.steady_ratio(timed, count)
    if ratio > MOST_RATIO:
        wrong.append("not linear")
    print("%-8s %-22s %9d bytes  status %d  %7.2f s  ratio %4.2f  %8d kB  %s %s" % (
        command, name, size, status, seconds, ratio, kilobytes, said[:60].strip(), ", ".join(wrong)), flush=True)
    return not wrong


def main(words):
    """Tries all nets."""
    count = int((words + ["20000"])[0])
    folder = tempfile.mkdtemp(prefix="echonet-trials.", dir="/dev/shm" if os.path.isdir("/dev/shm") else None)
    try:
        held = [try_net(row, command, count, os.path.join(folder, "net")) for row in NETS for command in ("check", "picture")]
    finally:
        shutil.rmtree(folder)
    print("nets: %d passed, %d failed" % (held.count(True), held.count(False)))
    return 0 if all(held) else 1


if __name__ == "__main__":
    sys.exit(main(sys.argv[1:]))
