"""Counts of a toss: the log says what the base has got, whatever else is in the run."""
import os
import random
import re
import unittest
from typing import NamedTuple

import build
from build import END, OWN, echomail, header, letter
from echonet_station.station import Station
from echonet_station.toss import toss

LINE = re.compile(r"\S+ (came|aside) (\S+) from (\S+) filed ([0-9]+) known ([0-9]+) notecho ([0-9]+) badtag ([0-9]+) noarea ([0-9]+) notlinked ([0-9]+)(: .*)?")
KNOWN = re.compile(r"\S+ known ([0-9]+) (\S+) from (\S+)")
STRANGER = (2, 5020, 7, 0)
END_EARLY = """#!/bin/sh
# Runs the program. A toss prints its lines, and then ends as ENDS says. Before that, by BEFORE, the base is as before.
if [ "$1" = toss ] && [ ! -e "$MARK" ]; then
  : > "$MARK"
  cp -r "$BASE" "$BASE.kept"
  "$PROGRAM" "$@"
  rm -rf "$BASE" && mv "$BASE.kept" "$BASE"
  [ "$ENDS" = 9 ] && kill -9 $$
  echo "echonet: cannot use $BASE" >&2
  exit "$ENDS"
fi
exec "$PROGRAM" "$@"
"""


class Logged(NamedTuple):
    """A line of the log on a packet."""

    word: str
    name: str
    sender: str
    filed: int
    known: int
    reason: str


class Counting(build.StationCase):
    """A station, and how many messages it has."""

    links = "SYSTEM 2:5020/100\nNAME Me\nAREA TEST 2:5020/1 2:31000/7\nAREA OTHER 2:5020/1\nAREA FAR 2:5020/9\n"

    def setUp(self) -> None:
        super().setUp()
        os.makedirs(self.at("base"))

    def toss(self) -> tuple[int, list[str]]:
        """Tosses. Returns the status, and the lines."""
        self.log_size = len(self.log_lines())
        with build.printed() as out:
            status = toss(Station(self.top), [])
        return int(status), out.lines()

    def log_lines(self) -> list[str]:
        """The lines of the log."""
        return self.content("log").decode().split("\n")[:-1] if os.path.exists(self.at("log")) else []

    def logged(self) -> list[Logged]:
        """What the log says of the packets of the last run."""
        found = (LINE.fullmatch(line) for line in self.log_lines()[self.log_size :])
        return [Logged(line[1], line[2], line[3], int(line[4]), int(line[5]), (line[10] or "")[2:]) for line in found if line]

    def known(self) -> list[tuple[str, ...]]:
        """The lines on known messages."""
        return [line.groups() for line in map(KNOWN.fullmatch, self.log_lines()[self.log_size :]) if line]

    def messages(self) -> int:
        """How many messages the areas of the base have."""
        listed = build.run_program("list", "--areas", self.at("base"))
        return sum(int(line.split()[3]) for line in listed.split("\n") if line.startswith("area "))


class Mixes(Counting):
    """Packets of all kinds, alone and in bundles, in any order."""

    rounds = 6
    has_peers = False

    def setUp(self) -> None:
        super().setUp()
        if not self.has_peers:
            os.unlink(self.at("peers"))
        self.password = b"secret" if self.has_peers else b""
        self.chance = random.Random(5)
        self.number = 0

    def new(self, tag=b"TEST") -> bytes:
        """A message that nobody had."""
        self.number += 1
        return echomail(self.number, tag=tag)

    def one(self, kind: str) -> tuple[bytes, int, int]:
        """A packet, and how many messages of it are filed and known."""
        some = [self.new(self.chance.choice((b"TEST", b"OTHER"))) for _ in range(self.chance.randint(1, 3))]
        packet = header(password=self.password)
        if kind == "good":
            return packet + b"".join(some) + END, len(some), 0
        if kind == "again":
            return packet + some[0] + some[0] + END, 1, 1
        if kind == "new area":
            return packet + some[0] + self.new(b"NEW") + self.new(b"NEWER") + END, 1, 0
        if kind == "not linked":
            return packet + self.new(b"FAR") + b"".join(some) + END, len(some), 0
        if kind == "cut":
            return (packet + b"".join(some) + self.new())[:-40], len(some), 0
        if kind == "other system":
            return header(to=(2, 5020, 55, 0), password=self.password) + some[0] + END, 0, 0
        return b"", 0, 0

    def test_mixes(self):
        kinds = ("good", "again", "new area", "not linked", "cut", "other system", "empty")
        for number in range(self.rounds):
            before, wanted, known = self.messages(), 0, 0
            chosen = [self.chance.choice(kinds) for _ in range(self.chance.randint(1, 5))]
            packets = []
            for kind in chosen:
                content, filed, again = self.one(kind)
                packets.append(("%08x.pkt" % self.chance.getrandbits(32), content))
                wanted, known = wanted + filed, known + again
            if self.has_peers and self.chance.random() < 0.5:
                packets = [("0000ff%02x.su0" % number, build.zipped(*packets))]
            for name, content in packets:
                self.put("inbound/" + name, content)
            status, _ = self.toss()
            logged = self.logged()
            what = (number, chosen, self.log_lines()[self.log_size :])
            self.assertEqual(sum(line.filed for line in logged), self.messages() - before, what)
            self.assertEqual((self.messages() - before, sum(line.known for line in logged)), (wanted, known), what)
            self.assertEqual(status == 0, all(kind in ("good", "again") for kind in chosen), what)
            self.assertEqual((self.names("tossing"), self.names("inbound")), ([], []), what)
            self.assertEqual(sum(int(line[0]) for line in self.known()), known, what)


class MixesWithPeers(Mixes):
    """The same through the gate."""

    has_peers = True


class Lines(Counting):
    """What is printed, logged and noted of packets."""

    peers = ""

    def test_reasons(self):
        odd = header() + echomail(1, tag=b"NEW") + echomail(2, tag=b"FAR") + echomail(3, tag=b"ABC") + echomail(4) + END
        self.put("inbound/1.pkt", odd)
        os.unlink(self.at("peers"))
        self.put("inbound/2.pkt", header() + letter(5) + letter(6) + echomail(7, tag=b"B D") + echomail(8, tag=b"NEW") + END)
        self.put("inbound/3.pkt", header() + letter(9) + echomail(10, tag=b"A B") + echomail(11, tag=b"") + END)
        status, lines = self.toss()
        first = "2 messages for areas that you do not have: ABC, NEW (accept ABC, accept NEW); 1 message not from a link of FAR (subscribe 2:5020/1 FAR)"
        second = "1 message for areas that you do not have: NEW (accept NEW); 2 messages that are no echomail; 1 message with a bad tag"
        third = "1 message that is no echomail; 2 messages with a bad tag"
        self.assertEqual((status, lines), (1, ["put aside 1.pkt: " + first, "put aside 2.pkt: " + second, "put aside 3.pkt: " + third]))
        self.assertEqual([line.reason for line in self.logged()], [first, second, third])
        why = self.content("bad", "1.pkt.why").decode().split("\n")
        self.assertEqual(why[:2], [first, "filed 1 known 0 notecho 0 badtag 0 noarea 2 notlinked 1"])
        self.assertEqual([line.split(" msgid")[0].split(" ", 4)[4] for line in why[2:-1]], ["noarea area NEW", "notlinked area FAR", "noarea area ABC"])

    def test_known(self):
        self.put("inbound/1.pkt", header() + echomail(1) + echomail(2, tag=b"OTHER") + END)
        self.toss()
        self.put("inbound/1.pkt", header() + echomail(2, tag=b"OTHER") + echomail(1) + echomail(3) + echomail(3) + echomail(4, tag=b"NEW") + END)
        self.put("inbound/2.pkt", header() + echomail(5) + END)
        _, lines = self.toss()
        self.assertEqual(self.known(), [("1", "OTHER", "2:5020/1"), ("2", "TEST", "2:5020/1")])
        self.assertEqual([line[:6] for line in self.logged()][1], ("came", "2.pkt", "2:5020/1", 1, 0, ""))
        self.assertIn("2.pkt: filed 1 known 0 notecho 0 badtag 0 noarea 0 notlinked 0", lines)

    def test_point(self):
        """The log has its address on the net."""
        self.put("peers", b"POINT 2:31000/7 2:5020/100.7\n")
        point = (2, 5020, 100, 7)
        self.put("inbound/1.pkt", header(by=point, to=OWN, plus=True) + echomail(1) + echomail(1) + echomail(2, tag=b"FAR") + END)
        _, lines = self.toss()
        self.assertEqual(self.logged(), [Logged("aside", "1.pkt", "2:5020/100.7", 1, 1, "1 message not from a link of FAR (subscribe 2:5020/100.7 FAR)")])
        self.assertEqual(self.known(), [("1", "TEST", "2:5020/100.7")])

    def test_without_name(self):
        """A folder where a packet should be, and one before and after it."""
        os.unlink(self.at("peers"))
        for name, number in (("1.pkt", 1), ("3.pkt", 3)):
            self.put("inbound/" + name, header() + echomail(number) + END)
        os.mkdir(self.at("inbound", "2.pkt"))
        status, _ = self.toss()
        self.assertEqual([(line.word, line.name, line.filed) for line in self.logged()], [("came", "1.pkt", 1), ("aside", "2.pkt", 0), ("came", "3.pkt", 1)])
        self.assertEqual((status, self.messages()), (1, 2))


class Ends(Counting):
    """Tosses that print their lines, and do not write the base."""

    peers = ""

    def setUp(self) -> None:
        super().setUp()
        self.put("early", END_EARLY.encode())
        os.chmod(self.at("early"), 0o755)
        for number in (1, 2):
            self.put("inbound/%d.pkt" % number, header() + echomail(number) + (echomail(9, tag=b"NEW") if number == 2 else b"") + END)

    def toss_ending(self, how: str) -> tuple[int, list[str]]:
        """Tosses with a program that ends so, the first time."""
        env = {"ECHONET": self.at("early"), "ENDS": how, "PROGRAM": build.program(), "BASE": self.at("base"), "MARK": self.at("mark")}
        before = {name: os.environ.get(name) for name in env}
        os.environ.update(env)
        try:
            return self.toss()
        finally:
            for name, value in before.items():
                os.environ.pop(name) if value is None else os.environ.__setitem__(name, value)

    def test_full_disk(self):
        """No line counts, and no packet goes."""
        status, lines = self.toss_ending("3")
        self.assertEqual((status, lines, self.logged()), (3, ["echonet: cannot use " + self.at("base")], []))
        self.assertEqual(([name for name in self.names("tossing") if name.endswith("pkt")], self.names("bad")), (["00000001.pkt", "00000002.pkt"], []))
        self.assertEqual((self.toss()[0], self.messages()), (1, 2))
        self.assertEqual([(line.name, line.filed, line.known) for line in self.logged()], [("1.pkt", 1, 0), ("2.pkt", 1, 0)])

    def test_refused_link_file(self):
        links = self.content("links")
        self.put("links", b"FOO\n" + links)
        self.assertEqual((self.toss()[0], self.logged(), self.names("bad")), (2, [], []))
        self.put("links", links)
        self.assertEqual((self.toss()[0], sum(line.filed for line in self.logged())), (1, 2))

    def test_killed(self):
        """Each packet is tossed alone then."""
        status, _ = self.toss_ending("9")
        self.assertEqual((status, self.messages()), (1, 2))
        self.assertEqual([(line.word, line.name, line.filed) for line in self.logged()], [("came", "1.pkt", 1), ("aside", "2.pkt", 1)])

    def test_killed_alone(self):
        """A packet that needs more memory than there is goes aside, if the base can be used without it."""
        os.unlink(self.at("inbound", "2.pkt"))
        status, lines = self.toss_ending("9")
        self.assertEqual((status, self.messages(), self.names("tossing")), (1, 0, []))
        self.assertEqual([(line.word, line.filed, line.reason) for line in self.logged()], [("aside", 0, "echonet: killed by signal 9")])


if __name__ == "__main__":
    unittest.main()
