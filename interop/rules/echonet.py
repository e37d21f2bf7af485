"""A system of its own with echonet, with the methods of crashmail.py."""
import glob
import os
import subprocess

from lib import making, reading
from lib.contents import read, write
from crashmail import LONGEST
from judge import OWN, Packed

REFUSED = 2  # the status if a packet was cut


class Echonet:
    """A station in a folder. `nets` has the links of each system in each area."""

    name = "echonet"

    def __init__(self, folder, nets):
        self.folder, self.nets, self.unreadable, self.serial = folder, nets, [], 0
        self.program = os.environ["ECHONET"]
        os.makedirs(self.path("packets"))
        areas = [(tag, sorted(net[OWN])) for tag, net in nets.items()]
        write(self.path("links"), making.link_file(OWN, areas, "Beta"))

    def path(self, name):
        """A path in the folder."""
        return os.path.join(self.folder, name)

    def run(self, command, *words, given=b"", good=(0,)):
        """Runs a command on the station."""
        ended = subprocess.run([self.program, command, *words], input=given, timeout=LONGEST, capture_output=True)
        if ended.returncode not in good:
            raise ValueError("echonet %s: %s" % (command, ended.stderr.decode()))

    def toss(self, *packets):
        """Tosses packets, and returns what it sends on."""
        paths = [self.path("%d.pkt" % number) for number in range(len(packets))]
        for path, content in zip(paths, packets):
            write(path, content)
        self.run("toss", self.path("links"), self.path("base"), *paths, good=(0, REFUSED))
        return self.settle()

    def settle(self):
        """Sends what waits."""
        self.run("scan", "--at", making.STAMP, self.path("links"), self.path("base"), self.path("packets"))
        copies = []
        for path in sorted(glob.glob(self.path("packets/*.pkt"))):
            messages, fault, _ = reading.read_packet(read(path), reading.MOST_SHOWN)
            origin, link = reading.read_header(read(path))
            if fault is not None or origin != OWN:
                self.unreadable.append("%s: %s" % (path, fault))
            copies += [(link, Packed(*message[1:])) for message in messages]
            os.remove(path)
        return copies

    def post(self, tag, to, by, subject, lines):
        """Posts a message, and returns it and what is sent."""
        self.serial += 1
        self.run("post", "--area", tag, "--to", to, "--from", by, "--subject", subject, "--serial",
                 "%08x" % self.serial, "--at", making.STAMP, self.path("links"), self.path("base"),
                 given=b"".join(line + b"\n" for line in lines))
        posted = making.read_base(read(self.path("base")))[1][-1]
        return Packed(making.DATE, *posted[2], posted[4]), self.settle()

    def filed(self):
        """The subjects of the messages in its base."""
        if not os.path.exists(self.path("base")):
            return []
        return [message[2][2] for message in making.read_base(read(self.path("base")))[1]]
