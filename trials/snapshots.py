"""Snapshots of a base folder by hard links, as `cp -al` takes them.

1. Each command runs on a base folder that shares its files with a snapshot. It does the same as on a folder of its
own,
   and the snapshot stays unchanged.
2. All commands run one after another, with a snapshot before each.
3. With strace, each command is killed at each call that changes the disk or flushes it. The snapshot stays, and the
   command run again ends as if it had not been killed.
"""
import os
import shutil
import sys
import tempfile

from folder_kills import Wanted, calls_of, changes, run_killed
from lib.folder_station import COMMANDS, converted, copy_of, expect, filled_station, finish, packets_in, run


def snapshot(station, name="snapshot"):
    """A snapshot of the base, and the contents of its files."""
    base, place = os.path.join(station, "base"), os.path.join(station, name)
    os.mkdir(place)
    for file in os.listdir(base):
        os.link(os.path.join(base, file), os.path.join(place, file))
    return place, packets_in(place)


def expect_kept(what, taken):
    """A snapshot is unchanged."""
    place, files = taken
    expect("%s: %s" % (what, os.path.basename(place)), packets_in(place) == files)


def expect_alone(what, station):
    """No file of the base has a second path, except the note. The note is never written to: another file replaces
    it."""
    base = os.path.join(station, "base")
    files = [file for file in os.listdir(base) if file != "outbound"]
    shared = [file for file in files if os.stat(os.path.join(base, file)).st_nlink > 1]
    expect("%s: %s are shared" % (what, shared), not shared)


def run_shared(name, words, station, folder):
    """Runs a command on a base folder that a snapshot shares, and on a folder without a snapshot."""
    own, place = (copy_of(station, os.path.join(folder, it)) for it in ("own", "shared"))
    taken = snapshot(place)
    one, other = run(own, *words), run(place, *words)
    expect("%s: %r and not %r" % (name, other, one), one == other and one[0] == 0)
    expect("%s: the base" % name, converted(place) == converted(own))
    expect("%s: the packets" % name, packets_in(os.path.join(place, "out")) == packets_in(os.path.join(own, "out")))
    expect_kept(name, taken)
    expect_alone(name, place)


def run_all(station, folder):
    """Runs all commands, with a snapshot before each."""
    own, place = (copy_of(station, os.path.join(folder, it)) for it in ("own", "shared"))
    taken = []
    for name, words in COMMANDS.items():
        taken.append(snapshot(place, "before %s" % name))
        one, other = run(own, *words), run(place, *words)
        expect("%s after others: %r and not %r" % (name, other, one), one == other)
    expect("all: the base", converted(place) == converted(own))
    for it in taken:
        expect_kept("all", it)


def kill_shared(name, words, station, folder):
    """Kills a command at each call that changes the disk, and runs it again."""
    wanted = Wanted(words, station, folder)
    counted = copy_of(station, os.path.join(folder, "counted"))
    snapshot(counted)
    kills = 0
    for call in filter(changes, calls_of(counted, words)):
        what = "%s on shared files killed at %s %d" % (name, *call[:2])
        place = copy_of(station, os.path.join(folder, "killed"))
        taken = snapshot(place)
        kills += run_killed(place, words, call)
        base = wanted.look(what, place)
        expect_kept(what, taken)
        wanted.mend(what, place, base)
        expect_kept(what, taken)
        expect_alone(what, place)
    expect("%s is killed" % name, kills > 10)
    print("%s on shared files killed at %d calls of the system" % (name, kills), flush=True)


def main():
    """All of it."""
    with tempfile.TemporaryDirectory(prefix="echonet-trials.") as folder:
        station = filled_station(os.path.join(folder, "station"))
        for name, words in COMMANDS.items():
            run_shared(name, words, station, folder)
        run_all(station, folder)
        if shutil.which("strace"):
            for name, words in COMMANDS.items():
                kill_shared(name, words, station, folder)
    return finish("snapshots")


if __name__ == "__main__":
    sys.exit(main())
