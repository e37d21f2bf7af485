"""Packets of real scans: what is put on by a sender and taken off by a receiver leaves each byte as it was."""
import os
import random
import shutil
import unittest
from os.path import exists, join

import build
from build import put
from echonet_station.calls import call

SENDER = "2:5020/100"
AREAS = ("FIRST", "SECOND", "THIRD")
# What the sender's file says of each link, and how often it is a link of an area.
LINKS = {
    "2:5020/1": "",
    "2:5020/2": "PEER 2:5020/2\n",
    "2:5020/3": "PEER 2:5020/3 PASSWORD Secret\n",
    "2:5020/4": "PEER 2:5020/4 PLUS\n",
    "1:10/5": "PEER 1:10/5 PASSWORD abcdefgh PLUS\n",
    "32767:32767/32767": "PEER 32767:32767/32767 PLUS PASSWORD !\n",
}
UPLINK = "2:5020/1"
POINT = "2:31000/7"
REAL = "2:5020/100.7"
ROUNDS = 4


class Identity(build.StationCase):
    """A sender, and a receiver for each link."""

    def setUp(self) -> None:
        super().setUp()
        self.random = random.Random(1)
        self.seen = self.changed = self.serial = 0
        os.makedirs(self.at("base"))
        os.makedirs(self.at("scanned"))

    def post(self) -> None:
        """Posts some messages."""
        for _ in range(self.random.randint(1, 3)):
            body = "".join(self.random.choice(("text", " ", "\n", "ä", "SEEN-BY: 5020/3\n", "--- x\n")) for _ in range(self.random.randint(0, 60)))
            words = ["--area", self.random.choice(AREAS), "--to", "All", "--from", "Ann", "--subject", "Hi", "--serial", "auto", "--at", "now"]
            path = join(self.work, "body")
            put(path, body.encode())
            command = '"$0" post "$@" < %s' % path
            posted = call("/bin/sh", "-c", command, build.program(), *words, self.at("links"), self.at("base"))
            self.assertEqual(posted.status, 0, posted.faults)

    def pass_on(self) -> None:
        """Tosses messages of another system, with odd lines, for the scan to pass on."""
        messages = []
        for _ in range(self.random.randint(1, 4)):
            self.serial += 1
            seen = b" ".join(self.random.choice((b"5020/7", b"8", b"1/2", b"9")) for _ in range(self.random.randint(1, 40)))
            odd = dict(to=b"T" * self.random.randint(0, 35), subject=b"\xe4" * self.random.randint(0, 71))
            messages.append(build.echomail(self.serial, tag=self.random.choice(AREAS).encode(), seen=b"5020/1 " + seen, **odd))
        path = join(self.work, "odd.pkt")
        put(path, build.header() + b"".join(messages) + build.END)
        tossed = call(build.program(), "toss", self.at("links"), self.at("base"), path)
        self.assertRegex(tossed.output, "^filed %d known 0 " % len(messages), tossed.faults)

    def scan(self) -> dict[str, bytes]:
        """Scans. Returns the packets by name."""
        done = call(build.program(), "scan", "--at", "now", self.at("links"), self.at("base"), self.at("scanned"))
        self.assertEqual(done.status, 0, done.faults)
        return {name: self.content("scanned", name) for name in self.names("scanned") if name.endswith(".pkt")}

    def receive(self, link: str, peers: str, content: bytes) -> bytes:
        """What the gate of a receiver passes on."""
        top = join(self.work, "receiver")
        shutil.rmtree(top, ignore_errors=True)
        put(join(top, "links"), ("SYSTEM %s\nAREA FIRST %s\n" % (link, SENDER)).encode())
        put(join(top, "peers"), peers.encode())
        bundled = self.random.random() < 0.3
        put(join(top, "inbound", "a.su0" if bundled else "a.pkt"), build.zipped(("x", content)) if bundled else content)
        mine, self.top = self.top, top
        self.assertEqual(self.gate(), (0, []))
        packets = list(self.passed().values())
        self.top = mine
        self.assertEqual(len(packets), 1)
        return packets[0]

    def both_ways(self, line_of: dict[str, str], more: str = "") -> None:
        """Dresses the packets of scans, and lets the gates of their links take them."""
        self.put("links", ("SYSTEM %s\n" % SENDER + "".join("AREA %s %s\n" % (tag, " ".join(line_of)) for tag in AREAS)).encode())
        self.put("peers", ("".join(line_of.values()) + more).encode())
        for _ in range(ROUNDS):
            self.post()
            if UPLINK in line_of:
                self.pass_on()
            scanned = self.scan()
            self.outgoing()
            for name, content in scanned.items():
                zone, net, node = name.split(".")[:3]
                link = "%s:%s/%s" % (zone, net, node)
                dressed = self.content("scanned", name)
                self.changed += dressed != content
                self.seen += 1
                self.assertEqual(self.receive(link, self.peers_of(link, line_of[link]), dressed), content, name)
                os.unlink(self.at("scanned", name))

    def peers_of(self, link: str, line: str) -> str:
        """What the receiver's file says of the sender: the same password."""
        if link == POINT:
            return "PEER %s\nPOINT %s %s\n" % (SENDER, POINT, REAL)
        return line.replace(link, SENDER, 1).replace("Secret", "sECRET")

    def test_without_points(self):
        self.both_ways(LINKS)
        self.assertEqual((self.seen, self.changed), (ROUNDS * len(LINKS), ROUNDS * 4))

    def test_packets_to_a_point(self):
        self.both_ways({POINT: ""}, "POINT %s %s\n" % (POINT, REAL))
        self.assertEqual((self.seen, self.changed), (ROUNDS, ROUNDS))

    def test_nothing_is_copied(self):
        """A packet that needs nothing is moved: the same file goes on."""
        self.put("peers", b"")
        self.put("inbound/a.pkt", build.header() + build.echomail(1) + build.END)
        number = os.stat(self.at("inbound", "a.pkt")).st_ino
        self.gate()
        self.assertEqual(os.stat(self.at("tossing", "00000001.pkt")).st_ino, number)
        self.assertFalse(exists(self.at("inbound", "a.pkt")))


if __name__ == "__main__":
    unittest.main()
