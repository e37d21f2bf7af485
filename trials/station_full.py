"""A station with `peers` whose disk is full: bundles of CrashMail arrive, letters and messages wait to be sent.

The station is on a small tmpfs, which needs root. For each number of free pages it tosses and scans. Each ends
with 0 or 3, and nothing is put aside. Then the disk gets room, and they run again, two of each at the same time.
Then each message is in the base once, each letter in the folder once, and each own message and letter in one packet of
which the flow file has one line. Arguments: the greatest number of free pages (60), the step (3). It needs crashmail,
zip and unzip; without them it is left out, with a line.
"""
import glob
import os
import re
import shutil
import subprocess
import sys
import tempfile

from lib import others
from lib.contents import TOP, read, write

PROGRAM = os.environ.get("ECHONET", os.path.join(TOP, "bin", "echonet"))
STATION = os.path.join(TOP, "station", "echonet-station")
OWN, UPLINK = "2:5020/100", "2:5020/1"
ROOM, PAGE = 8 << 20, 4096


def bundles(place):
    """Bundles of an uplink with packet password: names and bytes. Each has messages and letters."""
    uplink = others.CrashMail(place, UPLINK + ".0", [OWN + '.0 "ZIP" "uplinkpw" PACKNETMAIL'], [("TEST", OWN + ".0")],
                              ['"2:5020/100.*" "%s.0" %s.0' % (OWN, UPLINK)])
    found = {}
    for number in range(3):
        for part in range(4):
            uplink.write("test", b"All", b"Text%d.%d" % (number, part), b"Text%d.%d!\r" % (number, part) + b"x" * 3000 + b"\r")
        uplink.write("netmail", b"Sysop", b"Letter%d" % number, b"Letter%d!\r" % number, OWN)
        uplink.run("SCAN")
        for path in glob.glob(place + "/packets/*.??[0-9a-z]"):
            found["%08x%s" % (number + 1, os.path.splitext(path)[1])] = read(path)
            os.unlink(path)
        for path in glob.glob(place + "/outbound/*.?lo"):
            os.unlink(path)
    if len(found) != 3:
        sys.exit("station_full.py: bundles %r" % list(found))
    return found


def call(folder, *words, given=b""):
    """Runs a word."""
    return others.run([STATION, folder, *words], given)


class Trial:
    """A station on the small disk, with what has to be tossed and sent."""

    def __init__(self, place, received):
        self.folder = os.path.join(place, "station")
        for words in (("new", OWN, "Station", UPLINK, "127.0.0.1", "uplinkpw", "TEST"), ("post", "TEST", "All", "Me", "Own")):
            status, said = call(self.folder, *words, given=b"Own!\n")
            if status:
                sys.exit("station_full.py: %s: %d %s" % (words[0], status, said))
        os.makedirs(os.path.join(self.folder, "netmail"))
        write(os.path.join(self.folder, "netmail", "2.msg"), others.stored(OWN, UPLINK, b"Sysop", b"Sent", b"Sent!\r"))
        os.utime(os.path.join(self.folder, "netmail", "2.msg"), (1, 1))
        for name, content in received.items():
            write(os.path.join(self.folder, "inbound", name), content)

    def run(self, words):
        """Starts words at the same time, and returns their statuses and what they printed."""
        runs = [subprocess.Popen([STATION, self.folder, word], stdout=subprocess.PIPE, stderr=subprocess.STDOUT) for word in words]
        said = [run.communicate()[0].decode("latin-1") for run in runs]
        return [run.returncode for run in runs], "".join(said)

    def aside(self):
        """What was put aside."""
        return os.listdir(os.path.join(self.folder, "bad")) if os.path.isdir(os.path.join(self.folder, "bad")) else []

    def faults(self):
        """What is not as it has to be after the last run."""
        found = []
        listed = subprocess.run([PROGRAM, "list", os.path.join(self.folder, "base")], stdout=subprocess.PIPE, check=False).stdout
        letters = b"\n".join(read(path) for path in glob.glob(self.folder + "/netmail/*.msg"))
        packets = b"\n".join(read(path) for path in glob.glob(self.folder + "/packets/*.pkt"))
        for number in range(3):
            for part in range(4):
                found += self.once("Text%d.%d!" % (number, part), listed)
            found += self.once("Letter%d!" % number, letters)
        found += self.once("Own!", packets) + self.once("Sent!", packets)
        lines = b"".join(read(path) for path in glob.glob(self.folder + "/outbound/*.?lo")).decode().split()
        if sorted(lines) != sorted("^" + path for path in glob.glob(self.folder + "/packets/*.pkt")):
            found.append("flow file %r" % lines)
        for name in ("inbound", "gate", "tossing", "scanned", "letters"):
            names = [path for path in glob.glob(os.path.join(self.folder, name, "**"), recursive=True) if os.path.isfile(path)]
            found += names
        return found + self.aside()

    @staticmethod
    def once(mark, content):
        """A fault, if the content has the mark not exactly once."""
        count = len(re.findall(re.escape(mark.encode()), content))
        return [] if count == 1 else ["%s %d times" % (mark, count)]


def try_pages(disk, received, pages):
    """One number of free pages. Returns the statuses of the first two runs."""
    subprocess.run(["mount", "-t", "tmpfs", "-o", "size=%d" % ROOM, "none", disk], check=True)
    try:
        trial = Trial(disk, received)
        about = os.statvfs(disk)
        with open(os.path.join(disk, "filler"), "wb") as file:
            file.write(bytes(max(0, about.f_bavail - pages) * PAGE))
        seen = []
        for word in ("toss", "scan"):
            statuses, said = trial.run([word])
            seen += statuses
            if statuses[0] not in (0, 3) or trial.aside() or "Traceback" in said:
                sys.exit("station_full.py: %d pages: %s ends with %r, aside %r\n%s" % (pages, word, statuses, trial.aside(), said))
        os.unlink(os.path.join(disk, "filler"))
        statuses, said = trial.run(["toss", "scan", "toss", "scan"])
        statuses += trial.run(["scan"])[0]
        faults = trial.faults()
        if any(statuses) or faults:
            sys.exit("station_full.py: %d pages, then room: %r %r\n%s" % (pages, statuses, faults, said))
        return seen
    finally:
        subprocess.run(["umount", disk], check=True)


def main():
    """The trial."""
    most = int(sys.argv[1]) if len(sys.argv) > 1 else 60
    step = int(sys.argv[2]) if len(sys.argv) > 2 else 3
    lack = others.missing("crashmail", "zip", "unzip")
    if lack or os.geteuid():
        print("station_full.py: left out, %s" % ("there is no %s (trials/programs.sh)" % lack if lack else "it needs root"))
        return
    os.environ["ECHONET"] = PROGRAM
    place = tempfile.mkdtemp()
    received = bundles(os.path.join(place, "uplink"))
    os.makedirs(os.path.join(place, "disk"))
    seen = [try_pages(os.path.join(place, "disk"), received, pages) for pages in range(0, most + 1, step)]
    shutil.rmtree(place)
    full = sum(3 in statuses for statuses in seen)
    if not 0 < full < len(seen):
        sys.exit("station_full.py: %d of %d disks were full" % (full, len(seen)))
    print("station_full.py: %d sizes of a disk, %d of them full: nothing lost, twice or put aside" % (len(seen), full))


if __name__ == "__main__":
    main()
