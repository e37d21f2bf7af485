"""Kills commands on a base folder at their calls of the system. It needs strace.

1. Each command that changes a base, the first posting in an empty folder, and `convert` into a folder. Each is killed
at
   each of its calls in turn. The folder is the base from before the command or after it. A packet has its name only
   if
   the cursor was moved. The command run again ends as if it had not been killed.
2. Each of them is killed at a call that changes the disk or flushes it. Then the run that repairs this is killed at
such
   a call.

Argument: which of the first kills the second part repeats, each (1), each second (2) and so on.
"""
import os
import re
import shutil
import subprocess
import sys
import tempfile

from lib import making
from lib.contents import PROGRAM
from lib.folder_station import (COMMANDS, converted, copy_of, expect, filled_station, finish, is_orderly, new_station,
                            packets_in, run)

CHANGES = ("fsync", "fdatasync", "ftruncate", "link", "linkat", "unlink", "unlinkat", "rename", "pwrite64")


def calls_of(station, words):
    """The calls of the system of a command: the name of each, its number among those of the name, and its line."""
    subprocess.run(["strace", "-o", "calls", PROGRAM, *words], cwd=station, input=b"", capture_output=True, check=False)
    counts, calls = {}, []
    with open(os.path.join(station, "calls"), encoding="utf-8", errors="replace") as file:
        for line in file:
            name = re.match(r"([a-z0-9_]+)\(", line)
            if name:
                counts[name[1]] = counts.get(name[1], 0) + 1
                calls.append((name[1], counts[name[1]], line))
    if not calls:
        raise SystemExit("strace shows no calls of %s" % words)
    return calls


def changes(call):
    """Whether a call changes the disk or flushes it."""
    name, _, line = call
    if name == "write":
        return re.match(r"write\([12],", line) is None
    return name in CHANGES or "O_CREAT" in line


def run_killed(station, words, call):
    """Runs a command that is killed at a call. Returns whether it was killed."""
    ended = run(station, *words, before=("strace", "-o", "/dev/null", "-e",
                                         "inject=%s:signal=SIGKILL:when=%d" % call[:2]))
    return ended[0] in (-9, 137)


class Wanted:
    """What a command leaves that is not killed: its output, the base before it and after it, and the packets."""

    def __init__(self, words, station, folder):
        self.words, self.before = words, converted(station)
        whole = copy_of(station, os.path.join(folder, "whole"))
        self.first = run(whole, *words)
        self.after, self.packets = converted(whole), packets_in(os.path.join(whole, "out"))

    def look(self, what, station):
        """Looks at what a kill left, and returns the base."""
        base = converted(station)
        expect("%s: the base" % what, base in (self.before, self.after))
        for packet, content in packets_in(os.path.join(station, "out")).items():
            if packet.endswith(".pkt"):
                expect("%s: %s" % (what, packet), base == self.after and content == self.packets[packet])
        return base

    def mend(self, what, station, base):
        """Runs the command again, to its end."""
        again = run(station, *self.words)
        expect("%s: again %r" % (what, again), is_orderly(again) and (base == self.after or again == self.first))
        expect("%s: the base at the end" % what, converted(station) == self.after)
        expect("%s: the packets at the end" % what, packets_in(os.path.join(station, "out")) == self.packets)


def kill_each(name, words, station, folder):
    """Kills a command at each of its calls, and runs it again."""
    wanted = Wanted(words, station, folder)
    calls = calls_of(copy_of(station, os.path.join(folder, "counted")), words)
    killed = 0
    for call in calls:
        what = "%s killed at %s %d" % (name, *call[:2])
        place = copy_of(station, os.path.join(folder, "killed"))
        killed += run_killed(place, words, call)
        wanted.mend(what, place, wanted.look(what, place))
    expect("%s is killed at all calls but some of memory, not at %d of %d" % (name, killed, len(calls)),
           killed >= len(calls) - 5)
    print("%s killed at each of %d calls of the system" % (name, killed), flush=True)


def kill_twice(name, words, station, folder, step):
    """Kills a command, and then the run that repairs the result."""
    wanted = Wanted(words, station, folder)
    pairs = 0
    for first in list(filter(changes, calls_of(copy_of(station, os.path.join(folder, "counted")), words)))[::step]:
        left = copy_of(station, os.path.join(folder, "left"))
        run_killed(left, words, first)
        base = converted(left)
        for second in filter(changes, calls_of(copy_of(left, os.path.join(folder, "counted")), words)):
            what = "%s killed at %s %d, and then at %s %d" % (name, *first[:2], *second[:2])
            place = copy_of(left, os.path.join(folder, "killed"))
            pairs += run_killed(place, words, second)
            now = wanted.look(what, place)
            expect("%s: it goes on" % what, now == wanted.after or base == wanted.before)
            wanted.mend(what, place, now)
    print("%s killed twice, at %d pairs of calls" % (name, pairs), flush=True)


def kill_convert(station, folder):
    """Kills `convert` into a folder, and into a file, at each of its calls, and runs it again."""
    wanted = converted(station)
    for to in ("to", "file"):
        start = copy_of(station, os.path.join(folder, "start"))
        if to == "to":
            os.mkdir(os.path.join(start, "to"))
        words, killed = ("convert", "base", to), 0
        nothing = making.base(0, []) if to == "to" else (3, b"", b"echonet: cannot use file\n")
        for call in calls_of(copy_of(start, os.path.join(folder, "counted")), words):
            what = "convert to a %s killed at %s %d" % (to, *call[:2])
            place = copy_of(start, os.path.join(folder, "killed"))
            killed += run_killed(place, words, call)
            base = converted(place, to)
            expect("%s: made" % what, base in (nothing, wanted))
            again = run(place, *words)
            expect("%s: again %r" % (what, again), again[0] == (3 if base == wanted else 0))
            expect("%s: at the end" % what, converted(place, to) == wanted)
        print("convert killed at each of %d calls of the system" % killed, flush=True)


def main(words):
    """All of it."""
    step = int(words[0]) if words else 1
    if not shutil.which("strace"):
        print("folder_kills: strace is not installed")
        return 0
    with tempfile.TemporaryDirectory(prefix="echonet-trials.") as folder:
        station = filled_station(os.path.join(folder, "station"))
        empty = new_station(os.path.join(folder, "empty"))
        os.mkdir(os.path.join(empty, "base"))
        places = [(name, words, station) for name, words in COMMANDS.items()]
        places.append(("the first post", COMMANDS["post"], empty))
        for name, command, place in places:
            kill_each(name, command, place, folder)
        kill_convert(station, folder)
        for name, command, place in places:
            kill_twice(name, command, place, folder, step)
    return finish("folder_kills")


if __name__ == "__main__":
    sys.exit(main(sys.argv[1:]))
