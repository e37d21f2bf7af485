"""Pauses of links: what came meanwhile is sent when they end, once, also if commands are killed."""
import os
import unittest

import build
from build import echomail
from echonet_station import pausing
from echonet_station.station import Station
from fidonet.addresses import address_of
from stopping import Stop, StoppingDisk, copy_state, put_state
from test_links import Links


class WithMail(Links):
    """A hub with mail that comes."""

    links = "SYSTEM 2:5020/100\nAREA TEST 2:5020/1 2:5020/200\nAREA NEWS 2:5020/1 2:5020/200\nAREA OWN 2:5020/200\n"
    peers = "PEER 2:5020/1\nPEER 2:5020/200\n"

    def come(self, *numbers: int, tag: bytes = b"TEST") -> None:
        """Mail of the uplink."""
        self.put("inbound/x.pkt", build.packet(*(echomail(number, tag=tag) for number in numbers), password=b""))
        self.assertEqual(self.say("toss")[0], 0)

    def sent(self, name: str = "139c00c8") -> list[int]:
        """The numbers of the messages that were sent to a link, and that wait no more for a scan."""
        paths = []
        if os.path.exists(self.at("outbound", name + ".flo")):
            paths = [line[1:] for line in self.content("outbound", name + ".flo").decode().split("\n") if line]
        return sorted(number for path in paths for number in build.ids_in(build.content(path)))


class Paused(WithMail):
    """Pauses, with mail that comes meanwhile."""

    def test_nothing_is_lost_or_sent_twice(self):
        self.come(1, 2)
        self.say("scan")
        self.come(3)  # waits for a scan when the pause begins
        status, lines = self.say("pause", "2:5020/200")
        self.assertEqual((status, lines[-1]), (0, "paused 2:5020/200: 3 areas"))
        self.say("scan")
        self.come(4, 5)
        self.come(6, tag=b"NEWS")
        self.say("scan")
        self.come(7)  # waits for a scan when it ends
        self.say("subscribe", "2:5020/200", "OWN")
        self.assertEqual(self.say("pause", "2:5020/200")[1][-1], "paused 2:5020/200: 3 areas")
        self.assertEqual(self.sent(), [1, 2])
        status, lines = self.say("resume", "2:5020/200")
        self.assertEqual((status, lines[-1]), (0, "resumed 2:5020/200: 3 areas, 4 messages"))
        self.say("scan")
        self.assertEqual(self.sent(), [1, 2, 3, 4, 5, 6, 7])
        self.assertEqual(self.say("resume", "2:5020/200")[0], 2)

    def test_a_note_of_a_stopped_command_is_used_up_first(self):
        """A link has an area again, and its note stayed. A pause by hand or by letter sends first what came meanwhile."""
        self.come(1)
        self.say("pause", "2:5020/200")
        self.say("scan")
        note = self.content("paused")
        self.say("subscribe", "2:5020/200", "TEST")
        for name in self.names("scanned"):
            os.unlink(self.at("scanned", name))
        self.put("paused", note)
        station = Station(self.top)
        station.load()
        with build.printed():
            pausing.Pauses(station).pause(address_of("2:5020/200"))
        self.come(2)
        self.say("scan")
        self.say("resume", "2:5020/200")
        self.say("scan")
        self.assertEqual(self.sent(), [1, 2])

    def test_the_doctor_knows_it(self):
        advice = "BAD  peer 2:5020/200 is a link: no AREA line names it"
        self.say("pause", "2:5020/200")
        self.assertNotIn(advice, self.say("doctor")[1])
        self.say("unsubscribe", "2:5020/200", "--all")
        self.assertIn(advice, self.say("doctor")[1])
        self.put("peers", b"PEER 2:5020/1\nPEER 2:5020/200 PASS\n")
        self.assertNotIn(advice, self.say("doctor")[1])

    def test_purged(self):
        self.come(1)
        self.say("pause", "2:5020/200")
        self.say("scan")
        build.subprocess.run([build.program(), "purge", self.at("links"), self.at("base")], stdout=-3, check=True)
        self.come(2)
        self.say("scan")
        self.assertEqual(self.say("resume", "2:5020/200")[1][-1], "resumed 2:5020/200: 3 areas, 1 messages, 1 purged")

    def test_a_refused_area_stays_paused(self):
        self.say("pause", "2:5020/200")
        text = self.content("links")
        self.put("links", text.replace(b"AREA OWN", b"AREA GONE"))
        status, lines = self.say("resume", "2:5020/200")
        self.assertEqual((status, lines[-1]), (1, "resumed 2:5020/200: 2 areas, 0 messages"))
        self.assertIn("refused 2:5020/200 OWN: no area", lines)
        self.assertEqual(self.content("paused"), b"2:5020/200 OWN 0\n")
        self.say("unsubscribe", "2:5020/200", "OWN")
        self.assertEqual(self.say("resume", "2:5020/200")[0], 2)

    def test_rescan(self):
        self.come(1, 2, 3)
        self.say("scan")
        before = len(self.sent())
        self.assertEqual(self.say("subscribe", "2:5020/200", "TEST", "NEWS", "--rescan", "2")[0], 0)
        self.say("scan")
        self.assertEqual((before, self.sent()), (3, [1, 2, 2, 3, 3]))


class Resumed(WithMail):
    """A resume that is stopped at each place. Then a scan runs, or the command again."""

    links = "SYSTEM 2:5020/100\nAREA TEST 2:5020/1 2:5020/200\nAREA NEWS 2:5020/1 2:5020/200\n"

    def setUp(self) -> None:
        super().setUp()
        self.come(1)
        self.say("scan")
        self.say("pause", "2:5020/200")
        self.come(2, 3)
        self.come(4, tag=b"NEWS")
        self.say("scan")

    def stopped(self, function, place: int) -> bool:
        """Whether a command was stopped before this change."""
        station = Station(self.top, StoppingDisk(self.top, place))
        try:
            with build.printed():
                function(station, ["2:5020/200"])
        except Stop:
            return True
        finally:
            station.unlock()
        return False

    def made(self) -> dict[str, int]:
        """The packets of a resume that wait for the scan, with the numbers of their files."""
        return {name: os.stat(self.at("scanned", name)).st_ino for name in self.names("scanned") if name.startswith("2.5020.200.p")}

    def test_each_place(self):
        begin, place = copy_state(self.top), 0
        while True:
            place += 1
            put_state(self.top, begin)
            if not self.stopped(pausing.resume, place):
                break
            made = self.made()
            if place % 2:
                self.say("scan")
            self.say("resume", "2:5020/200")
            if place % 2 == 0:
                self.assertLessEqual(made.items(), self.made().items(), place)  # what lies there is not made again
            self.come(5)
            self.say("scan")
            self.assertEqual(self.sent(), [1, 2, 3, 4, 5], place)
            self.assertNotIn("paused", self.names(), place)
        self.assertGreater(place, 20)

    def test_a_pause_at_each_place(self):
        from stopping import copy_state, put_state

        self.say("resume", "2:5020/200")
        self.say("scan")
        begin, place = copy_state(self.top), 0
        while True:
            place += 1
            put_state(self.top, begin)
            if not self.stopped(pausing.pause, place):
                break
            self.come(6)
            if place % 2:
                self.say("scan")
            self.say("pause", "2:5020/200")
            self.come(7, tag=b"NEWS")
            self.say("scan")
            self.say("resume", "2:5020/200")
            self.say("scan")
            self.assertEqual(self.sent(), [1, 2, 3, 4, 6, 7], place)
        self.assertGreater(place, 15)


if __name__ == "__main__":
    unittest.main()
