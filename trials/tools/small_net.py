"""A net whose systems post, scan and toss by the program. Its bases and packets are fixtures that the program makes."""
import os
import shutil

import fixtures
from fixtures import write


class Net:
    """Systems in folders. `links` has the link file of each address, as text."""

    def __init__(self, place, links):
        self.place, self.links, self.posted = place, links, 0
        for system, content in links.items():
            os.makedirs(self.path(system, "base"))
            os.makedirs(self.path(system, "inbound"))
            os.makedirs(self.path(system, "tossed"))
            os.makedirs(self.path(system, "out"))
            write(self.path(system, "links"), content.encode())

    def path(self, system, *names):
        """A path in the folder of a system."""
        return os.path.join(self.place, system.replace(":", ".").replace("/", "."), *names)

    def run(self, *words, given=b""):
        """Runs the program, which has to end well."""
        ended = fixtures.echonet(*words, given=given)
        if ended.status or ended.fault:
            raise AssertionError("%r: %r" % (words, ended))
        return ended.out

    def post(self, system, tag, day="2026-07-03"):
        """A posting with a new serial."""
        self.posted += 1
        self.run("post", "--area", tag, "--to", "All", "--from", "Ann", "--subject", "N %d" % self.posted, "--serial",
                 "%08x" % self.posted, "--at", day + "T12:34:56", self.path(system, "links"), self.path(system, "base"), given=b"Hello\n")

    def pass_on(self, system):
        """A scan of a system. Its packets come into the inbound folders of the links. Returns how many there are."""
        out = self.path(system, "out")
        self.run("scan", "--at", "2026-07-03T12:34:56", self.path(system, "links"), self.path(system, "base"), out)
        names = os.listdir(out)
        for name in names:
            zone, net, node = name.split(".")[:3]
            target = self.path("%s:%s/%s" % (zone, net, node), "inbound", system.replace(":", ".").replace("/", ".") + "-" + name)
            shutil.move(os.path.join(out, name), target)
        return len(names)

    def take(self, system):
        """A toss of all packets of a system. They stay in its folder `tossed`."""
        inbound = self.path(system, "inbound")
        names = sorted(os.listdir(inbound))
        if names:
            self.run("toss", self.path(system, "links"), self.path(system, "base"), *(os.path.join(inbound, name) for name in names))
        for name in names:
            shutil.move(os.path.join(inbound, name), self.path(system, "tossed", name))

    def settle(self):
        """Scans and tosses until no packet is made."""
        while sum([self.pass_on(system) for system in self.links]):
            for system in self.links:
                self.take(system)

    def sources(self, system, tag):
        """The messages of an area in a base as sources: JAM, stored messages, JSON, and the packets that were tossed."""
        base = self.path(system, "base")
        jam, stored, lines = (self.path(system, kind + tag) for kind in ("jam", "msg", "json"))
        os.makedirs(stored)
        self.run("export", "--jam", jam, "--area", tag, base)
        self.run("export", "--msg", stored, "--area", tag, base)
        write(lines, self.run("export", "--json", "--area", tag, base).encode())
        return ["jam:%s:%s" % (tag, jam), "msg:%s:%s" % (tag, stored), "json:" + lines, "packets:" + self.path(system, "tossed")]
