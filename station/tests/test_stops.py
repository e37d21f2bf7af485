"""Runs that are killed, or lose their power, before each change of a file. They run again, and nothing is lost or used
twice."""
import os
import random
import struct
import unittest

import build
from build import END, OWN, echomail, header, ids_in, letter, packet, stored, zipped
from echonet_station import gate as gate_module
from echonet_station import rounds, unpacking
from fidonet.addresses import address_of
from echonet_station.answer import answer_lists
from echonet_station.repair import step
from echonet_station.station import Station
from stopping import Stop, StoppingDisk, copy_state, put_state

CUTS = 3  # power cuts at each place
OTHER = header(by=(21, 1, 1, 0), to=(21, 1, 100, 0), password=b"fsx") + echomail(99) + END


class Stopping(build.StationCase):
    """Stops a run at each place, and looks at what a second one makes of it."""

    cuts = CUTS
    repeats = 2

    def run_once(self, disk=None) -> None:
        """The run that is stopped."""
        raise NotImplementedError

    def look(self, where: str) -> None:
        """What has to hold in the end."""
        raise NotImplementedError

    def stop_everywhere(self) -> int:
        """Stops at each place, by a kill and by power cuts. Returns how many places there are."""
        begin = copy_state(self.top)
        place = 0
        while True:
            place += 1
            for number in range(self.cuts + 1):
                put_state(self.top, begin)
                disk = StoppingDisk(self.top, place)
                try:
                    self.run_once(disk)
                    return place - 1
                except Stop:
                    pass
                chance = random.Random(1000 * place + number)
                if number:
                    disk.cut(chance, chance.choice((0.0, 0.2, 0.5, 0.8, 1.0)))
                for _ in range(self.repeats):
                    self.run_once()
                self.look("place %d, %s" % (place, "cut %d" % number if number else "kill"))


class Gate(Stopping):
    """Received files of all kinds."""

    peers = build.PEERS + "LEAVE 21:1/100\n"

    def setUp(self) -> None:
        super().setUp()
        # In this process: a fork for each run would take most of the time.
        self.addCleanup(setattr, gate_module, "unpack", gate_module.unpack)
        gate_module.unpack = unpacking.unpacked
        mixed = packet(letter(91), echomail(5), letter(92, 7), letter(93, 100, b"\1TOPT 7\r"), echomail(6))
        bundle = (("x", packet(echomail(1), echomail(2))), ("../../y", packet(echomail(3), letter(90))), ("read.me", b"hello"))
        self.put("inbound/0000aaaa.mo0", zipped(*bundle))
        self.put("inbound/0000bbbb.SU1", zipped(("x", header() + echomail(4) + END), ("o", OTHER), ("y", packet(echomail(12), password=b"x"))))
        self.put("inbound/1.pkt", mixed)
        self.put("inbound/2.pkt", packet(echomail(7), echomail(8))[:-60])
        self.put("inbound/3.pkt", packet(echomail(9), password=b"wrong"))
        self.put("inbound/4.pkt", packet(echomail(10, by=b"B" * 50), echomail(11)))
        self.put("inbound/5.pkt", header(by=(2, 5020, 9, 0)) + echomail(13).replace(b"2:5020/1 ", b"2:5020/9 ") + END)
        self.put("inbound/6.su9", b"")

    def run_once(self, disk=None) -> None:
        self.gate(disk)

    def look(self, where: str) -> None:
        packets = self.passed()
        got = ids_in(b"".join(packets.values()))
        self.assertEqual(set(got), {1, 2, 3, 5, 6, 7, 10, 11}, where)
        self.assertTrue(any(b"2:5020/9 0000000d" in content for content in packets.values()), where)
        letters = [number for name in self.names("netmail") for number in ids_in(self.content("netmail", name))]
        self.assertEqual(sorted(letters), [90, 91, 93], where)
        wanted = ["0000aaaa.mo0", "0000bbbb.SU1.1.pkt", "0000bbbb.SU1.3.pkt", "1.letters.pkt", "2.pkt", "3.pkt"]
        self.assertEqual(self.names("bad"), sorted(wanted + [name + ".why" for name in wanted]), where)
        for name in wanted:
            self.assertTrue(self.reason(name).startswith("gate: "), where)
        self.assertEqual([self.content("inbound", name) for name in self.names("inbound")], [OTHER], where)
        self.assertEqual(self.names("gate"), [], where)
        for name in self.names("tossing"):
            self.assertTrue(os.path.exists(self.at("tossing", name[:8] + ".pkt")), (where, name))
        for content in packets.values():
            self.assertEqual((content[24:34], content[38:58], content[-2:]), (bytes(10), bytes(20), END), where)

    def test_each_place(self):
        self.assertGreater(self.stop_everywhere(), 80)


class Few(Stopping):
    """A bundle with a bad member, a packet with a password and a letter, and one that is refused."""

    def setUp(self) -> None:
        super().setUp()
        self.addCleanup(setattr, gate_module, "unpack", gate_module.unpack)
        gate_module.unpack = unpacking.unpacked
        self.put("inbound/0000aaaa.mo0", zipped(("x", packet(echomail(1))), ("read.me", b"hello")))
        self.put("inbound/1.pkt", packet(echomail(2), letter(91)))
        self.put("inbound/2.pkt", packet(echomail(3), password=b"wrong"))

    def run_once(self, disk=None) -> None:
        self.gate(disk)

    def look(self, where: str) -> None:
        self.assertEqual(set(ids_in(b"".join(self.passed().values()))), {1, 2}, where)
        self.assertEqual(set(self.passed()), {"0000aaaa.mo0.1.pkt", "1.pkt"}, where)
        self.assertEqual([ids_in(self.content("netmail", name)) for name in self.names("netmail")], [[91]], where)
        wanted = ["0000aaaa.mo0", "0000aaaa.mo0.why", "2.pkt", "2.pkt.why"]
        self.assertEqual((self.names("bad"), self.names("gate"), self.names("inbound")), (wanted, [], []), where)
        self.assertTrue(self.reason("2.pkt").startswith("gate: wrong packet password"), where)

    def test_each_place(self):
        self.assertGreater(self.stop_everywhere(), 30)


class Reused(Stopping):
    """A number that is used again: what an earlier packet left must not make a letter vanish."""

    def run_once(self, disk=None) -> None:
        self.gate(disk)
        if disk is None:
            self.put("inbound/b.pkt", packet(letter(92)))
            self.put("inbound/c.pkt", packet(letter(91)))  # as a link sends a packet again
            self.gate()

    def setUp(self) -> None:
        super().setUp()
        self.put("inbound/a.pkt", packet(letter(91)))

    def look(self, where: str) -> None:
        letters = [number for name in self.names("netmail") for number in ids_in(self.content("netmail", name))]
        self.assertEqual(sorted(letters), [91, 92], where)

    def test_each_place(self):
        self.assertGreater(self.stop_everywhere(), 10)


class Outgoing(Stopping):
    """Letters, and packets of a scan."""

    def setUp(self) -> None:
        super().setUp()
        self.put("netmail/2.msg", stored(b"out 2\r"))
        self.put("netmail/3.msg", stored(b"\1TOPT 7\rto the point\r", to=OWN))
        self.put("netmail/4.msg", stored(b"sent before\r", attributes=0x109))
        self.put("netmail/5.msg", stored(b"received\r", attributes=1))
        for node in (1, 2):
            self.put("scanned/2.5020.%d.0.pkt" % node, header(OWN, (2, 5020, node, 0)) + echomail(node, seen=b"5020/1 31000/7") + END)
        for name in ("letters", "netmail"):
            os.makedirs(self.at(name), exist_ok=True)

    def run_once(self, disk=None) -> None:
        self.outgoing(disk)

    def look(self, where: str) -> None:
        packets = {name: self.content("scanned", name) for name in self.names("scanned")}
        mail = b"".join(packets.values())
        self.assertEqual((mail.count(b"out 2"), mail.count(b"to the point"), mail.count(b"sent before")), (1, 1, 0), where)
        self.assertEqual(sorted(ids_in(mail)), [1, 2], where)
        self.assertNotIn(b"31000/7", b"".join(packet[58:] for packet in packets.values()), where)
        for name, content in packets.items():
            self.assertEqual(content[26:32] == b"secret", name.startswith("2.5020.1."), where)
        marks = [struct.unpack_from("<H", self.content("netmail", "%d.msg" % number), 186)[0] & 8 for number in (2, 3, 4, 5)]
        self.assertEqual(marks, [8, 8, 8, 0], where)
        self.assertEqual(self.names("letters"), [], where)

    def test_each_place(self):
        self.assertGreater(self.stop_everywhere(), 20)


class Retoss(Stopping):
    """Files of bad/ on their way back."""

    def setUp(self) -> None:
        super().setUp()
        self.put("bad/1.pkt", packet(echomail(1)))
        self.put("bad/1.pkt.why", b"gate: wrong packet password of 2:5020/1\n")
        self.put("bad/2.pkt", header() + echomail(2) + END)
        self.put("bad/2.pkt.why", b"filed 0 known 0 notecho 0 badtag 0 noarea 1 notlinked 0\nmessage 1 at 58 noarea area NEW\n")

    def run_once(self, disk=None) -> None:
        from echonet_station.bad_files import bad_files
        from echonet_station.retoss import move_back
        from echonet_station.station import Station

        station = Station(self.top, disk)
        station.load()
        move_back(station, bad_files(station))
        if disk is None:
            self.gate()

    def look(self, where: str) -> None:
        got = ids_in(b"".join(self.passed().values()))
        self.assertEqual(set(got), {1, 2}, where)
        self.assertEqual([name for name in self.names("bad") if not name.endswith(".why")], [], where)

    def test_each_place(self):
        self.assertGreater(self.stop_everywhere(), 10)


class Lists(Stopping):
    """Questions of a link and of a point, an answer, and lists that are refused. Each run starts several programs."""

    cuts = repeats = 1

    def setUp(self) -> None:
        super().setUp()
        self.toss(echomail(1), echomail(2))
        round_ = rounds.Round(Station(self.top))
        round_.station.load()
        round_.begin({"TEST": [address_of("2:5020/1")]})
        self.number = round_.pairs[0].number
        self.toss(echomail(3))
        self.ask("2.5020.1-2.5020.100.0000000a.ask", 1)
        self.ask("2.5020.100.7-2.5020.100.0000000b.ask")
        self.ask("2.5020.9-2.5020.100.0000000c.ask")
        self.ask("2.5020.1-2.5020.100.%s.0.ids" % self.number, 2)

    def toss(self, *messages: bytes) -> None:
        """Files messages in the base."""
        os.makedirs(self.at("base"), exist_ok=True)
        build.put(self.at("x.pkt"), header() + b"".join(messages) + END)
        words = ("toss", self.at("links"), self.at("base"), self.at("x.pkt"))
        build.subprocess.run([build.program(), *words], stdout=-3, check=True)

    def ask(self, name: str, *ids: int) -> None:
        """A list that a link sent."""
        lines = "".join("id 2:5020/1 %08x\n" % number for number in ids)
        self.put("inbound/" + name, ("area TEST\n%send %d messages, 0 without id\n" % (lines, len(ids))).encode())

    def run_once(self, disk=None) -> None:
        with build.printed():
            answer_lists(Station(self.top, disk))

    def look(self, where: str) -> None:
        self.assertEqual(self.names("inbound"), [], where)
        packets = {name: self.content("scanned", name) for name in self.names("scanned")}
        point, boss = "2.31000.7.as-", "2.5020.1."
        named = {name: ids_in(content) for name, content in packets.items() if ".as-" in name and name.endswith(".pkt")}
        self.assertEqual(named, {boss + "as-0000000a.pkt": [2, 3], point + "0000000b.pkt": [1, 2, 3]}, where)
        others = [name for name in packets if ".as-" not in name]
        self.assertTrue(others and all(name.startswith(boss) for name in others), (where, others))
        self.assertTrue(all(ids_in(packets[name]) == [1, 3] for name in others), where)
        lists = [name for name in packets if name.endswith(".ids")]
        wanted = [point + "2.5020.100-2.5020.100.7.0000000b.3.ids", boss + "as-2.5020.100-2.5020.1.0000000a.2.ids"]
        self.assertEqual(lists, wanted, where)
        for name in lists:
            self.assertEqual(packets[name].count(b"\nid "), 3, (where, name))
        # The message that came after the question does not count as lacking.
        self.assertEqual(self.content("repair", self.number + ".answer"), b"0 2 1\n", where)

    def test_each_place(self):
        self.assertGreater(self.stop_everywhere(), 25)
        self.assertIn(b" answered 2:5020/100.7 TEST: 3 messages\n", self.content("log"))
        self.assertNotIn(b"31000", self.content("log"))


class Questions(Lists):
    """A round that begins."""

    cuts = 8

    def setUp(self) -> None:
        super().setUp()
        for name in self.names("inbound"):
            os.unlink(self.at("inbound", name))
        os.unlink(self.at("repair", "round"))

    def run_once(self, disk=None) -> None:
        station = Station(self.top, disk)
        with build.printed():
            try:
                step(station, set(), [])
            finally:
                station.unlock()

    def look(self, where: str) -> None:
        station = Station(self.top)
        station.load()
        pairs = rounds.Round(station).pairs
        self.assertEqual([str(pair) for pair in pairs], ["2:5020/1 TEST", "2:31000/7 TEST"], where)
        numbers = [pair.number for pair in pairs]
        wanted = ["2.31000.7.as-2.5020.100-2.5020.100.7.%s.ask" % numbers[1], "2.5020.1.as-2.5020.100-2.5020.1.%s.ask" % numbers[0]]
        self.assertEqual(self.names("scanned"), wanted, where)
        for name in wanted:
            self.assertEqual(self.content("scanned", name).count(b"\nid "), 3, (where, name))

    def test_each_place(self):
        self.assertGreater(self.stop_everywhere(), 15)
        self.assertIn(b" asked 2:5020/100.7 TEST\n", self.content("log"))
        self.assertNotIn(b"31000", self.content("log"))


class Full(build.StationCase):
    """Each change of a file fails once, as on a full disk. Then there is room, and all goes on."""

    def test_gate(self):
        mixed = packet(letter(91), echomail(5), letter(92, 7), echomail(6))
        self.put("inbound/0000aaaa.mo0", zipped(("x", packet(echomail(1), echomail(2))), ("read.me", b"hello")))
        self.put("inbound/1.pkt", mixed)
        self.put("inbound/2.pkt", packet(echomail(7)))
        self.put("inbound/3.pkt", packet(echomail(9), password=b"wrong"))
        begin, place = copy_state(self.top), 0
        while True:
            place += 1
            put_state(self.top, begin)
            disk = StoppingDisk(self.top, place, OSError(28, "No space left on device"))
            try:
                status, _ = self.gate(disk)
            except OSError:
                status = 3
            if disk.count < place:
                break
            self.assertEqual(status, 3, place)
            self.gate()
            got = ids_in(b"".join(self.passed().values()))
            self.assertEqual(set(got), {1, 2, 5, 6, 7}, place)
            letters = [number for name in self.names("netmail") for number in ids_in(self.content("netmail", name))]
            self.assertEqual(letters, [91], place)
            wanted = ["0000aaaa.mo0", "1.letters.pkt", "3.pkt"]
            self.assertEqual(self.names("bad"), sorted(wanted + [name + ".why" for name in wanted]), place)
            self.assertEqual((self.names("gate"), self.names("inbound")), ([], []), place)
        self.assertGreater(place, 40)


class FullForReal(build.StationCase):
    """The system refuses to write more than a few bytes of each file."""

    def test_no_room(self):
        self.put("inbound/1.pkt", packet(*(echomail(number) for number in range(1, 40))))
        self.put("inbound/2.pkt", header(by=(2, 5020, 9, 0)) + echomail(50) + END)
        command = "ulimit -f 1; exec \"$0\" \"$@\""
        words = ["/bin/sh", "-c", command, build.sys.executable, build.TOOL, self.top, "gate"]
        ran = build.subprocess.run(words, capture_output=True, check=False, timeout=600)
        self.assertEqual(ran.returncode, 3, ran.stderr)
        self.assertRegex(ran.stderr.decode(), r"^echonet-station: gate/00000001\.in: File too large\n$")
        self.assertEqual(sorted(self.passed()), ["2.pkt"])
        self.assertEqual(self.names("gate"), ["00000001.in", "00000001.name"])
        self.assertEqual(self.gate()[0], 0)
        self.assertEqual(sorted(ids_in(b"".join(self.passed().values()))), [*range(1, 40), 50])


class Killed(build.StationCase):
    """Two runs at once, and runs that a signal ends."""

    def test_at_once(self):
        wanted = set()
        for number in range(1, 41):
            wanted.add(number)
            content = packet(echomail(number), letter(1000 + number))
            name = "inbound/%d.pkt" % number if number % 2 else "inbound/%08d.su0" % number
            self.put(name, content if number % 2 else zipped(("x", content)))
        chance = random.Random(7)
        words = [build.sys.executable, build.TOOL, self.top, "gate"]
        for _ in range(8):
            runs = [build.subprocess.Popen(words, stdout=-3, stderr=-3) for _ in range(2)]
            try:
                runs[0].wait(chance.uniform(0.05, 0.4))
            except build.subprocess.TimeoutExpired:
                runs[0].kill()
            for run in runs:
                run.wait(600)
        self.assertEqual(self.gate()[0], 0)
        self.assertEqual(set(ids_in(b"".join(self.passed().values()))), wanted)
        letters = [number for name in self.names("netmail") for number in ids_in(self.content("netmail", name))]
        self.assertEqual(sorted(letters), [1000 + number for number in sorted(wanted)])
        self.assertEqual((self.names("inbound"), self.names("gate"), self.names("bad")), ([], [], []))


if __name__ == "__main__":
    unittest.main()
