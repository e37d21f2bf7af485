"""Random days of a hub: mail, letters, pauses, and runs that are killed. In the end each link has what sets say, each
message once."""
import os
import random
import unittest
from typing import Callable

import build
from build import header
from echonet_station import pausing, scan, subscriptions, toss
from echonet_station.running import status_of
from echonet_station.station import Station
from stopping import Stop, StoppingDisk
from test_areafix import request

UP, DOWNS, TAGS = 1, (200, 201), ("ONE", "TWO")
PEERS = "PEER 2:5020/1\nROUTE 2:5020/1\n" + "".join("PEER 2:5020/%d AREAFIX wordword GROUPS A PASS\n" % node for node in DOWNS)
LINKS = "SYSTEM 2:5020/100\n" + "".join("AREA %s 2:5020/1\n" % tag for tag in TAGS)
EVENTS = 22


class Model:
    """What each link has, and what it will get once it is resumed."""

    def __init__(self) -> None:
        self.wants: set[tuple[int, str]] = set()
        self.paused: set[tuple[int, str]] = set()
        self.waiting: list[tuple[str, int]] = []
        self.got: dict[int, set[int]] = {node: set() for node in DOWNS}
        self.later: dict[tuple[int, str], set[int]] = {}

    def scan(self) -> None:
        """What waits goes to all that want it, or is kept for them."""
        for tag, number in self.waiting:
            for node in DOWNS:
                if (node, tag) in self.paused:
                    self.later.setdefault((node, tag), set()).add(number)
                elif (node, tag) in self.wants:
                    self.got[node].add(number)
        self.waiting = []

    def subscribe(self, node: int, tag: str) -> None:
        """A link wants an area, also one that was paused."""
        self.wants.add((node, tag))
        self.resume(node, tag)

    def unsubscribe(self, node: int, tag: str) -> None:
        """It does not want it any more."""
        self.wants.discard((node, tag))
        self.paused.discard((node, tag))
        self.later.pop((node, tag), None)

    def pause(self, node: int) -> None:
        """It wants nothing for now."""
        self.paused |= {(other, tag) for other, tag in self.wants if other == node}

    def resume(self, node: int, *tags: str) -> None:
        """It wants it again."""
        for tag in tags or TAGS:
            self.paused.discard((node, tag))
            self.got[node] |= self.later.pop((node, tag), set())


class Days(build.StationCase):
    """A hub with an uplink and two downlinks."""

    peers, links = PEERS, LINKS

    def setUp(self) -> None:
        super().setUp()
        os.makedirs(self.at("base"))
        self.put("areas", b"".join(b"%s A\n" % tag.encode() for tag in TAGS))

    def begin(self, seed: int) -> None:
        """A day."""
        self.chance = random.Random(seed)
        self.model, self.number = Model(), 0
        self.letters = 0

    def do(self, function: Callable[..., int], *words: str) -> None:
        """A command that may be killed, and is given again then."""
        for place in (self.chance.randint(1, 45) if self.chance.random() < 0.5 else 0, 0):
            station = Station(self.top, StoppingDisk(self.top, place) if place else None)
            try:
                with build.printed() as out:
                    status = status_of(lambda: function(station, list(words)))
                self.assertIn(status, (0, 2) if function is pausing.resume else (0,), (function, words, out.getvalue()))
                return
            except Stop:
                continue
            finally:
                station.unlock()

    def mail(self) -> None:
        """Mail of the uplink."""
        messages = []
        for _ in range(self.chance.randint(1, 3)):
            self.number += 1
            tag = self.chance.choice(TAGS)
            messages.append(build.echomail(self.number, tag=tag.encode()))
            self.model.waiting.append((tag, self.number))
        self.put("inbound/%d.pkt" % self.number, header() + b"".join(messages) + build.END)
        self.do(toss.toss)

    def ask(self) -> None:
        """A letter to AreaFix."""
        self.letters += 1
        node, lines = self.chance.choice(DOWNS), []
        for _ in range(self.chance.randint(1, 4)):
            tag = self.chance.choice(TAGS)
            if self.chance.random() < 0.6:
                lines.append("+" + tag)
                self.model.subscribe(node, tag)
            else:
                lines.append("-" + tag)
                self.model.unsubscribe(node, tag)
        letter = request("\r".join(lines).encode(), node=node, subject=b"wordword", number=self.letters)
        self.put("inbound/l%d.pkt" % self.letters, header(by=(2, 5020, node, 0)) + letter + build.END)
        self.do(toss.toss)

    def by_hand(self) -> None:
        """A command of the sysop."""
        node, tag = self.chance.choice(DOWNS), self.chance.choice(TAGS)
        address, kind = "2:5020/%d" % node, self.chance.randint(1, 4)
        if kind == 1:
            self.model.subscribe(node, tag)
            self.do(subscriptions.subscribe, address, tag)
        elif kind == 2:
            self.model.unsubscribe(node, tag)
            self.do(subscriptions.unsubscribe, address, tag)
        elif kind == 3:
            self.model.pause(node)
            self.do(pausing.pause, address)
        else:
            self.model.resume(node)
            self.do(pausing.resume, address)

    def scan(self) -> None:
        """A scan."""
        self.model.scan()
        self.do(scan.scan)

    def sent(self, node: int) -> list[int]:
        """What was sent to a link."""
        path = self.at("outbound", "139c%04x.flo" % node)
        lines = build.content(path).decode().split("\n") if os.path.exists(path) else []
        return sorted(number for line in lines if line for number in build.ids_in(build.content(line[1:])[58:].split(b"AreaFix\0")[0]))

    def day(self, seed: int) -> None:
        """A whole day."""
        self.begin(seed)
        for _ in range(EVENTS):
            self.chance.choice((self.mail, self.mail, self.scan, self.scan, self.ask, self.by_hand, self.by_hand))()
        for node in DOWNS:
            self.model.resume(node)
            self.do(pausing.resume, "2:5020/%d" % node)
        self.scan()
        for node in DOWNS:
            self.assertEqual(self.sent(node), sorted(self.model.got[node]), (seed, node))
        listed = build.subprocess.run([build.program(), "list", "--areas", self.at("base")], capture_output=True, check=True).stdout
        self.assertIn(b"end %d messages, 0 waiting" % self.number, listed)
        self.assertEqual((self.names("areafix"), self.names("bad"), self.names("tossing"), self.names("gate")), ([], [], [], []), seed)
        self.assertLessEqual(len([name for name in self.names("netmail")]), self.letters)

    def test_some_days(self):
        for seed in range(int(os.environ.get("DAYS", "4"))):
            with self.subTest(seed):
                self.setUp()
                self.day(seed)


if __name__ == "__main__":
    unittest.main()
