"""Tosses and scans that are stopped before each change of a file, or find the disk full there. They run again."""
import os
import unittest

import build
from build import END, OWN, echomail, header, ids_in
from echonet_station.handing import Handing
from echonet_station.scan import scan
from echonet_station.station import Station
from echonet_station.toss import toss
from stopping import StoppingDisk, copy_state, put_state
from test_stops import Stopping

FULL = OSError(28, "No space left on device")


class Tossing(Stopping):
    """Packets without `peers`: good ones, one of an area that is not here, and one that is cut."""

    cuts = 0
    repeats = 1

    def setUp(self) -> None:
        super().setUp()
        os.unlink(self.at("peers"))
        self.put("inbound/1.pkt", header() + echomail(1) + END)
        self.put("inbound/2.pkt", header() + echomail(2) + echomail(3, tag=b"NEW") + END)
        self.put("inbound/3.pkt", (header() + echomail(4) + echomail(5))[:-40])
        self.put("inbound/4.PKT", header() + echomail(6) + END)

    def run_once(self, disk=None) -> None:
        self.status = 3
        os.makedirs(self.at("base"), exist_ok=True)
        with build.printed():
            self.status = toss(Station(self.top, disk), [])

    def ids(self) -> list[str]:
        """The ids of the base."""
        ran = build.subprocess.run([build.program(), "list", "--ids", "--area", "TEST", self.at("base")], stdout=-1, check=True)
        return [line.split(" ")[2] for line in ran.stdout.decode().split("\n") if line.startswith("id ")]

    def look(self, where: str) -> None:
        self.assertEqual(self.ids(), ["%08x" % number for number in (1, 2, 4, 6)], where)
        self.assertEqual((self.names("inbound"), [name for name in self.names("tossing") if name.endswith(".pkt")]), ([], []), where)
        self.assertEqual(self.names("bad"), ["2.pkt", "2.pkt.why", "3.pkt", "3.pkt.why"], where)
        self.assertEqual(self.content("bad", "3.pkt"), (header() + echomail(4) + echomail(5))[:-40], where)
        self.assertTrue(self.reason("3.pkt").startswith("echonet: P1 Truncated"), where)
        self.assertTrue(self.reason("2.pkt").startswith("1 message for areas that you do not have: NEW"), where)

    def test_each_place(self):
        self.assertGreater(self.stop_everywhere(), 25)

    def test_full(self):
        begin, place = copy_state(self.top), 0
        while True:
            place += 1
            put_state(self.top, begin)
            disk = StoppingDisk(self.top, place, FULL)
            try:
                self.run_once(disk)
            except OSError:
                pass
            if disk.count < place:
                break
            self.assertEqual(self.status, 3, place)
            self.run_once()
            self.look("full at place %d" % place)
        self.assertGreater(place, 25)


class HandingOver(Stopping):
    """Packets for two links and a list, of which one keeps its name."""

    def setUp(self) -> None:
        super().setUp()
        for number, name in enumerate(("2.5020.1.0.pkt", "2.31000.7.0.pkt", "2.5020.1.as-0000000a.pkt"), 1):
            self.put("scanned/" + name, header(OWN, (2, 5020, 1, 0)) + echomail(number) + END)
        self.put("scanned/2.5020.1.as-2.5020.100-2.5020.1.0000000a.1.ids", b"area TEST\n")

    def run_once(self, disk=None) -> None:
        for name in ("scanned", "packets", "outbound"):
            os.makedirs(self.at(name), exist_ok=True)
        station = Station(self.top, disk)
        station.load()
        handing = Handing(station)
        handing.end_left()
        handing.run()

    def look(self, where: str) -> None:
        self.assertEqual(self.names("scanned"), [], where)
        packets = {name: ids_in(self.content("packets", name)) for name in self.names("packets")}
        self.assertEqual(sorted(map(tuple, packets.values())), [(), (1,), (2,), (3,)], where)
        self.assertEqual((packets["0000000a.pkt"], packets["2.5020.100-2.5020.1.0000000a.1.ids"]), ([3], []), where)
        boss, point = self.at("outbound", "139c0001.flo"), self.at("outbound", "139c0064.pnt", "00000007.flo")
        for path, wanted in ((boss, [1, 3, None]), (point, [2])):
            lines = build.content(path).decode().split("\n")[:-1]
            there = [line[1:] for line in lines if os.path.exists(line[1:])]
            self.assertTrue(all(line.startswith("^" + self.at("packets")) for line in lines), where)
            self.assertEqual(len(set(there)), len(there), where)
            named = [(ids_in(build.content(it)) or [None])[0] for it in there]
            self.assertEqual(sorted(named, key=str), sorted(wanted, key=str), where)
        left = [name for folder, _, names in os.walk(self.at("outbound")) for name in names if not name.endswith(".flo")]
        self.assertEqual(left, [], where)

    def test_each_place(self):
        self.assertGreater(self.stop_everywhere(), 35)

    def test_sent(self):
        """The log has how many messages each packet has, as its link is called on the net."""
        self.run_once()
        lines = [line.split(" ", 1)[1] for line in self.content("log").decode().split("\n")[:-1]]
        size = len(header() + echomail(1) + END)
        self.assertEqual(sorted(line.split(" ", 2)[2] for line in lines), [
            "to 2:5020/1 1 messages %d bytes" % size, "to 2:5020/1 1 messages %d bytes" % size,
            "to 2:5020/1 10 bytes", "to 2:5020/100.7 1 messages %d bytes" % size])


class Scanning(build.StationCase):
    """What a whole scan says of its packets."""

    def test_dressed(self):
        """N is that of the scan, B the bytes that go: the point's packet becomes shorter."""
        os.makedirs(self.at("base"))
        for number in range(3):
            words = ["--area=TEST", "--to=All", "--from=Me", "--subject=%d" % number, "--serial=auto", "--at=now", self.at("links"), self.at("base")]
            build.subprocess.run([build.program(), "post", *words], input=b"x\n", stdout=-3, check=True)
        with build.printed() as out:
            self.assertEqual(scan(Station(self.top), []), 0)
        self.assertEqual([line.split(" ")[:4] for line in out.lines()], [["packet", "2:5020/1", "3", "messages"], ["packet", "2:31000/7", "3", "messages"]])
        lines = [line.split(" ") for line in self.content("log").decode().split("\n")[:-1]]
        for words in lines:
            self.assertEqual((words[1], words[5:7], int(words[7])), ("sent", ["3", "messages"], len(self.content("packets", words[2]))))
        self.assertEqual(sorted(words[4] for words in lines), ["2:5020/1", "2:5020/100.7"])

    def test_resent(self):
        """The packet of an earlier run is counted."""
        self.put("scanned/2.5020.1.r0.pkt", header(OWN, (2, 5020, 1, 0)) + echomail(1) + echomail(2) + END)
        with build.printed():
            scan(Station(self.top), [])
        self.assertRegex(self.content("log").decode(), r" to 2:5020/1 2 messages [0-9]+ bytes\n$")


if __name__ == "__main__":
    unittest.main()
