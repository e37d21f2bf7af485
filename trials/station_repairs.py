"""`echonet-station STATION repair` on random nets, with runs that are killed and files that are lost.

A net is a tree or a tree of polygons of stations with folders as a mailer has them; the trial is the mailer. Stations
post, and packets are lost. Bases are lost, also before a first run, and restored to older copies. Some stations have a
file `peers`. Then each station does rounds of repair, in any order, while files of the mailer are lost. At random times
`repair`, `toss` and `scan` of several stations are killed with all that they started. At last there are rounds without
losses and kills, until each station of a whole turn ends with `in order`. Then all bases have the same messages of two
areas: all that one had before, each once. No file is left on its way, and nothing in `bad` but stray packets, which come in
each round, and at other times: for another system, or without an end.

Arguments: how many nets (10), the first number (0). SEED makes other choices.
"""
import os
import random
import re
import shutil
import signal
import struct
import subprocess
import sys
import tempfile
import time

from lib.contents import PROGRAM, TOP, write
from lib.topologies import tree_of_polygons

STATION = os.path.join(TOP, "station", "echonet-station")
FLOW = re.compile(r"000a([0-9a-f]{4})\.flo")
LONGEST = 0.7  # seconds until a kill
STRAYS = 0.3  # how often a toss finds a stray packet
MOST_TURNS = 12


class Net:
    """The stations of a net."""

    def __init__(self, number, folder):
        self.chance = random.Random("%s station repairs %d" % (os.environ.get("SEED", ""), number))
        self.folder, self.kills, self.losses, self.strays = folder, 0, 0, 0
        self.stations = list(range(1, self.chance.randint(3, 5) + 1))
        if self.chance.random() < 0.6:
            self.pairs = {p for x in self.stations[1:] for y in [self.chance.randrange(1, x)] for p in ((x, y), (y, x))}
        else:
            self.pairs = tree_of_polygons(self.chance, self.stations)
        for x in self.stations:
            os.makedirs(self.at(x, "inbound"))
            os.mkdir(self.at(x, "base"))
            links = " ".join("1:10/%d" % y for y in self.stations if (x, y) in self.pairs)
            write(self.at(x, "links"), ("SYSTEM 1:10/%d\nNAME n\nAREA TEST %s\nAREA NEWS %s\n" % (x, links, links)).encode())
            if self.chance.random() < 0.5:
                write(self.at(x, "peers"), b"")

    def at(self, x, *names):
        """A path of a station."""
        return os.path.join(self.folder, str(x), *names)

    def run(self, x, *words, given=b""):
        """The status and the lines of a run."""
        run = subprocess.run([STATION, self.at(x), *words], input=given, capture_output=True, check=False, timeout=600)
        if run.returncode not in (0, 1) or b"Traceback" in run.stderr:
            sys.exit("station_repairs.py: %d %r: %d %r" % (x, words, run.returncode, run.stderr))
        return run.returncode, run.stdout.decode().split("\n")[:-1]

    def kill_some(self):
        """Runs of several stations at once, most of them killed."""
        runs = []
        for _ in range(self.chance.randint(1, 3)):
            words = (self.at(self.chance.choice(self.stations)), self.chance.choice(("repair", "repair", "toss", "scan")))
            runs.append(subprocess.Popen([STATION, *words], stdout=subprocess.DEVNULL, stderr=subprocess.DEVNULL, start_new_session=True))
        for run in runs:
            if self.chance.random() < 0.8:
                time.sleep(self.chance.random() * LONGEST)
                self.kills += run.poll() is None
                try:
                    os.killpg(run.pid, signal.SIGKILL)
                except ProcessLookupError:
                    pass
            run.wait()

    def deliver(self, loss):
        """Moves what the flow files name, and loses some of it. Returns how many files."""
        count = 0
        for x in self.stations:
            flows = self.at(x, "outbound")
            for name in sorted(os.listdir(flows)) if os.path.isdir(flows) else ():
                found = FLOW.fullmatch(name)
                if not found:
                    continue
                with open(os.path.join(flows, name), encoding="ascii") as file:
                    paths = [line[1:] for line in file.read().split()]
                os.unlink(os.path.join(flows, name))
                for path in filter(os.path.exists, paths):
                    count += 1
                    if self.chance.random() < loss:
                        self.losses += 1
                        os.unlink(path)
                    else:
                        shutil.move(path, self.at(int(found[1], 16), "inbound", os.path.basename(path)))
        return count

    def stray(self, x):
        """A bad packet that has nothing to do with a repair: for another system, or cut."""
        content = struct.pack("<12H10x2H20x", 1, self.chance.choice((x, 99)), 2026, 11, 1, 12, 0, 0, 0, 2, 10, 10, 1, 1)
        write(self.at(x, "inbound", "%08x.pkt" % self.chance.getrandbits(32)), content)
        self.strays += 1

    def settle(self, loss=0.0):
        """Toss and scan of all stations with news, until nothing moves. Stray packets come in between."""
        self.deliver(loss)
        busy = set(self.stations)
        while busy:
            for x in sorted(busy):
                if self.chance.random() < STRAYS:
                    self.stray(x)
                self.run(x, "toss")
                self.remove_strays(x)
                self.run(x, "scan")
            self.deliver(loss)
            busy = {x for x in self.stations if os.listdir(self.at(x, "inbound"))}

    def remove_strays(self, x):
        """Removes stray packets from bad/: those without a message."""
        folder = self.at(x, "bad")
        for name in os.listdir(folder) if os.path.isdir(folder) else ():
            if not name.endswith(".why") and os.path.getsize(os.path.join(folder, name)) == 58:
                os.unlink(os.path.join(folder, name))
                os.unlink(os.path.join(folder, name + ".why"))

    def ids(self, x):
        """The messages that a base has."""
        if not os.path.exists(self.at(x, "base")):
            return []
        run = subprocess.run([PROGRAM, "list", self.at(x, "base")], capture_output=True, check=True)
        return re.findall(r"^line \\x01MSGID: (.*)$", run.stdout.decode(), re.M)

    def disturb(self):
        """Postings, lost packets, lost and restored bases."""
        for x in self.stations:
            for _ in range(self.chance.randint(0, 2)):
                self.run(x, "post", self.chance.choice(("TEST", "NEWS")), "All", "Ann", "Hi", given=b"text %d\n" % self.chance.randrange(10**9))
            if self.chance.random() < 0.3:
                shutil.copytree(self.at(x, "base"), self.at(x, "copy"))
        self.settle(self.chance.choice((0.2, 0.6, 1.0)))
        for x in self.stations:
            if self.chance.random() < 0.3:
                shutil.rmtree(self.at(x, "base"))
                if os.path.exists(self.at(x, "copy")):
                    os.rename(self.at(x, "copy"), self.at(x, "base"))
                elif self.chance.random() < 0.5:
                    os.mkdir(self.at(x, "base"))

    def turn(self):
        """A round of each station. Returns whether all were in order."""
        good = True
        for x in self.chance.sample(self.stations, len(self.stations)):
            status, lines = self.run(x, "repair", "--again")
            self.stray(x)
            self.settle()
            status, lines = self.run(x, "repair")
            if lines[-1].startswith("open:"):
                sys.exit("station_repairs.py: a round of %d stays open: %r" % (x, lines))
            if (status == 0) != (lines[-1] == "in order"):
                sys.exit("station_repairs.py: status %d: %r" % (status, lines))
            good = good and status == 0
            self.settle()
        return good

    def left(self):
        """Files that are left somewhere."""
        found = []
        for x in self.stations:
            for name in ("inbound", "tossing", "gate", "scanned", "packets", "bad"):
                folder = self.at(x, name)
                found += ["%d/%s/%s" % (x, name, file) for file in (os.listdir(folder) if os.path.isdir(folder) else ())]
        return found

    def repair(self):
        """Disturbs the net, repairs it, and compares."""
        self.disturb()
        wanted = sorted({key for x in self.stations for key in self.ids(x)})
        for _ in range(self.chance.randint(2, 6)):
            self.kill_some()
            self.deliver(0.3)
        for turns in range(1, MOST_TURNS + 1):
            if self.turn():
                break
        else:
            sys.exit("station_repairs.py: not in order after %d turns" % turns)
        for x in self.stations:
            if sorted(self.ids(x)) != wanted:
                sys.exit("station_repairs.py: %d has %r, not %r" % (x, sorted(self.ids(x)), wanted))
        if self.left():
            sys.exit("station_repairs.py: left %r" % self.left())
        return turns, len(wanted)


def main():
    """The trial."""
    count = int(sys.argv[1]) if len(sys.argv) > 1 else 10
    begin = int(sys.argv[2]) if len(sys.argv) > 2 else 0
    os.environ["ECHONET"] = PROGRAM
    stations = kills = losses = strays = turns = 0
    for number in range(begin, begin + count):
        with tempfile.TemporaryDirectory() as folder:
            net = Net(number, folder)
            turns += net.repair()[0]
            stations, kills, losses = stations + len(net.stations), kills + net.kills, losses + net.losses
            strays += net.strays
    if not (kills and losses and strays):
        sys.exit("station_repairs.py: nothing was killed or lost, or no packet was stray")
    print("station_repairs.py: %d nets of %d stations, %d kills, %d files lost, %d stray packets, %d turns: all have all, and are in order"
          % (count, stations, kills, losses, strays, turns))


if __name__ == "__main__":
    main()
