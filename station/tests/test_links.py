"""Links from the console: areas, link, subscribe, unsubscribe, unlink, pause, resume, net."""
import os
import re
import signal
import stat
import unittest
from unittest import mock

import build
from build import echomail, header
from echonet_station import link_file, linking, subscriptions
from echonet_station.calls import Called
from echonet_station.faults import Stopped
from echonet_station.judging_links import faults_of
from echonet_station.station import Station
from stopping import Stop, StoppingDisk, copy_state, put_state
from test_hand import Handwork
from test_stops import Stopping

HUB = b"; mine\r\nSYSTEM 2:5020/100\r\nNAME Hub\nAREA TEST  2:5020/1 2:31000/7\r\n\tAREA\tother 2:5020/1\nAREA LAST"
LINE = "echonet-station: "
NOTE = "echonet: note: "


class Links(Handwork):
    """A hub with three areas."""

    links = HUB.decode()

    def system(self, name: str, address: str, *areas: str) -> None:
        """A link file of net/."""
        self.put("net/" + name, ("SYSTEM %s\n" % address + "".join("AREA %s\n" % area for area in areas)).encode())


class Areas(Links):
    """The file `areas`, and what the command prints."""

    def test_lines(self):
        self.put("areas", b"; comment\n\nLast Z the last one  \r\nTEST A\nNEW B a new one")
        self.toss(echomail(1), echomail(2))
        wanted = [
            "LAST Z links 0 messages 0 the last one",
            "NEW B no area a new one",
            "OTHER - links 1 messages 0",
            "TEST A links 2 messages 2",
        ]
        self.assertEqual(self.say("areas"), (0, wanted))

    def toss(self, *messages: bytes) -> None:
        """Files messages."""
        build.put(self.at("x.pkt"), header() + b"".join(messages) + build.END)
        words = ("toss", self.at("links"), self.at("base"), self.at("x.pkt"))
        build.subprocess.run([build.program(), *words], stdout=-3, check=True)

    def test_faults(self):
        for number, line in enumerate((b"\xff A", b"X", b"X a", b"X AB", b"X A " + b"y" * 61, b"test A", b"T\x01 A", b"y" * 61 + b" A")):
            self.put("areas", b"TEST A first\n" + line)
            status, lines = self.say("areas")
            self.assertEqual((status, len(lines)), (2, 1), number)
            self.assertTrue(lines[0].startswith(LINE + "areas:2: K"), lines)
        self.put("areas", b"TEST A " + b"y" * 60)
        self.assertEqual(self.say("areas")[0], 0)


class Subscribe(Links):
    """Areas of links."""

    def test_bytes_stay(self):
        os.chmod(self.at("links"), 0o640)
        status, lines = self.say("subscribe", "2:5020/200", "test", "OTHER", "Last", "none", "TEST")
        wanted = ["subscribed 2:5020/200 TEST", "subscribed 2:5020/200 OTHER", "subscribed 2:5020/200 LAST"]
        wanted += ["refused 2:5020/200 NONE: no area", "already 2:5020/200 TEST", "not judged: no link files in net"]
        self.assertEqual((status, lines), (1, wanted))
        changed = HUB.replace(b"31000/7\r", b"31000/7 2:5020/200\r").replace(b"5020/1\nAREA", b"5020/1 2:5020/200\nAREA") + b" 2:5020/200"
        self.assertEqual(self.content("links"), changed)
        self.assertEqual(stat.S_IMODE(os.stat(self.at("links")).st_mode), 0o640)
        self.assertEqual(self.say("unsubscribe", "2:5020/200", "other", "nothing"), (0, ["unsubscribed 2:5020/200 OTHER", "not linked 2:5020/200 NOTHING"]))
        self.assertEqual(self.say("unsubscribe", "2:5020/200", "--all"), (0, ["unsubscribed 2:5020/200 LAST", "unsubscribed 2:5020/200 TEST"]))
        self.assertEqual(self.content("links"), HUB)
        self.assertFalse([name for name in self.names() if name.endswith(".new")])

    def test_blanks_before_go_too(self):
        self.put("links", b"SYSTEM 2:5020/100\nAREA TEST \t 2:5020/1\t 2:05020/200 \t\n")
        self.say("unsubscribe", "2:5020/200", "TEST")
        self.assertEqual(self.content("links"), b"SYSTEM 2:5020/100\nAREA TEST \t 2:5020/1 \t\n")

    def test_points_by_either_address(self):
        self.assertEqual(self.say("unsubscribe", "2:5020/100.7", "TEST"), (0, ["unsubscribed 2:5020/100.7 TEST"]))
        self.assertEqual(self.content("links"), HUB.replace(b" 2:31000/7", b""))
        self.assertEqual(self.say("subscribe", "2:31000/7", "TEST", "--force"), (0, ["subscribed 2:5020/100.7 TEST"]))
        self.assertEqual(self.content("links"), HUB)

    def test_faults(self):
        for words, line in (
            (("subscribe", "2:5020", "TEST"), "bad address 2:5020"),
            (("subscribe", "2:5020/200.9", "TEST"), "bad address 2:5020/200.9"),
            (("unsubscribe", "2:5020/100", "TEST"), "own address 2:5020/100"),
            (("pause", "40000:1/1"), "bad address 40000:1/1"),
            (("resume", "2:5020/200"), "not paused 2:5020/200"),
        ):
            self.assertEqual(self.say(*words), (2, [LINE + line]))
        self.assertEqual(self.say("unsubscribe", "2:5020/1")[0], 4)
        self.assertEqual(self.say("unsubscribe", "2:5020/1", "--all", "TEST")[0], 4)
        self.assertEqual(self.say("subscribe", "2:5020/1", "TEST", "--rescan", "x")[0], 4)
        self.assertEqual(self.content("links"), HUB)

    def test_a_refused_file(self):
        text = HUB + b"\nAREA BAD 2:5020/1 2:5020/1\n"
        self.put("links", text)
        status, lines = self.say("subscribe", "2:5020/200", "TEST")
        self.assertEqual((status, self.content("links")), (2, text))
        wanted = [LINE + "%s:7: L6 RepeatedLink '2:5020/1'", NOTE + "%s:7: second link '2:5020/1', one is allowed"]
        self.assertEqual(lines[-2:], [line % self.at("links") for line in wanted])
        self.assertNotIn("links.new", self.names())

    def test_tags_that_none_can_be(self):
        ran = self.run_tool("subscribe", "2:5020/200", "Т\x1b", "\udcff\udce4", "a b")
        wanted = ["refused 2:5020/200 Т\\x1b: no area", "refused 2:5020/200 \\xff\\xe4: no area", "refused 2:5020/200 A B: no area"]
        self.assertEqual((ran.returncode, ran.stdout.decode().split("\n")), (1, [*wanted, ""]))

    def test_at_once(self):
        """Runs that change other lines of the file wait for each other."""
        words = [build.sys.executable, build.TOOL, self.top, "subscribe"]
        runs = [build.subprocess.Popen([*words, "2:5020/%d" % node, "TEST", "LAST"], stdout=-3, stderr=-3) for node in range(300, 306)]
        self.assertEqual([run.wait(600) for run in runs], [0] * 6)
        found = re.findall(rb"2:5020/30[0-5]", self.content("links"))
        self.assertEqual(sorted(found), sorted(b"2:5020/%d" % node for node in range(300, 306) for _ in range(2)))

    def test_read_only(self):
        self.say("subscribe", "2:5020/200", "TEST", "--read-only")
        self.say("subscribe", "2:5020/100.7", "TEST", "OTHER", "NONE", "--read-only")
        added = b"READONLY TEST 2:5020/200\nREADONLY TEST 2:5020/100.7\nREADONLY OTHER 2:5020/100.7\n"
        self.assertEqual(self.content("peers"), build.PEERS.encode() + added)


class Judged(Links):
    """Links that are judged first."""

    def test_a_loop(self):
        self.system("a", "2:5020/1", "TEST 2:5020/100 2:5020/5")
        self.system("b", "2:5020/5", "TEST 2:5020/1 2:5020/200")
        self.system("c", "2:5020/200", "TEST 2:5020/5")
        os.mkdir(self.at("net", "folder"))
        status, lines = self.say("subscribe", "2:5020/200", "TEST", "OTHER")
        found = re.fullmatch(r"refused 2:5020/200 TEST: would loop: (.*)", lines[0])
        self.assertEqual((status, lines[1:]), (1, ["subscribed 2:5020/200 OTHER"]))
        self.assertEqual(sorted(found[1].split(" ")), ["2:5020/1", "2:5020/100", "2:5020/200", "2:5020/5"])
        self.assertEqual(self.say("subscribe", "2:5020/200", "TEST", "--force"), (0, ["subscribed 2:5020/200 TEST"]))

    def test_same_net_and_node(self):
        self.system("a", "2:5020/1", "TEST 2:5020/100")
        lines = ["refused 1:5020/1 TEST: V6 SameNetNode 1:5020/1 2:5020/1"]
        self.assertEqual(self.say("subscribe", "1:5020/1", "TEST"), (1, lines))
        self.assertEqual(self.content("links"), HUB)

    def test_what_was_there_is_not_new(self):
        """A V6 of others, and a loop elsewhere, do not stop a leaf."""
        self.put("links", b"SYSTEM 2:5020/100\nAREA TEST 2:5020/1 1:5020/1\n")
        self.system("one", "2:5020/1", "TEST 2:5020/100")
        self.assertEqual(self.say("subscribe", "2:5020/200", "TEST"), (0, ["subscribed 2:5020/200 TEST"]))
        self.put("links", b"SYSTEM 2:5020/100\nAREA TEST 2:5020/1 2:5020/5\n")
        self.system("a", "2:5020/5", "TEST 2:5020/100 2:5020/6 2:5020/9")
        self.system("b", "2:5020/6", "TEST 2:5020/5 2:5020/7")
        self.system("c", "2:5020/7", "TEST 2:5020/6 2:5020/8")
        self.system("d", "2:5020/8", "TEST 2:5020/7 2:5020/9")
        self.system("e", "2:5020/9", "TEST 2:5020/8 2:5020/5")
        self.assertEqual(self.say("subscribe", "2:5020/200", "TEST"), (0, ["subscribed 2:5020/200 TEST"]))

    def test_a_faulty_file_is_left_out(self):
        self.test_a_loop()
        self.say("unsubscribe", "2:5020/200", "TEST")
        self.put("net/odd \x01", b"SYSTEM 2:5020/77\nAREA TEST x\n")
        self.put("net/own", b"SYSTEM 2:5020/100\nAREA TEST 2:5020/200\n")
        status, lines = self.say("subscribe", "2:5020/200", "TEST")
        self.assertEqual((status, lines[0]), (1, r"left out net/odd \x01: L2 BadAddress line 2"))
        self.assertIn("would loop: ", lines[1])
        self.assertEqual(lines[2:], [NOTE + r"net/odd \x01:2: bad address 'x', expected zone:net/node"])

    def test_a_fault_of_the_judging_comes_with_its_note(self):
        with self.assertRaises(Stopped) as found:
            faults_of([b"SYSTEM 1:10/1\nAREA T 1:10/2\n", b"SYSTEM 1:10/2\nAREA T x\n"])
        line, note = str(found.exception).split("\n")
        self.assertEqual(line, "echonet: L2 BadAddress line 2")
        self.assertRegex(note, NOTE + r"/.*/1:2: bad address 'x', expected zone:net/node")
        self.assertEqual(faults_of([b"SYSTEM 1:10/1\nAREA T 1:10/2\n", b"SYSTEM 1:10/2\nAREA T\n"]), {"T": ["V5 OneSided 1:10/1 1:10/2"]})

    def test_mail_that_was_seen(self):
        """The ways of mail close a ring of which no file is at hand."""
        self.put("links", b"SYSTEM 2:5020/100\nAREA TEST 2:5020/1\n")
        seen = b"SEEN-BY: 5020/1 5 100 200\r\x01PATH: 5020/200 5 1"
        text = b"AREA:TEST\r\x01MSGID: 2:5020/200 00000001\rx\r--- \r * Origin: o (2:5020/200)\r" + seen
        now = build.time.strftime("%d %b %y  %H:%M:%S", build.time.gmtime()).encode() + b"\0"
        Areas.toss(self, build.message(text).replace(build.DATE, now))
        status, lines = self.say("subscribe", "2:5020/200", "TEST")
        self.assertEqual((status, len(lines)), (1, 1))
        self.assertIn("would loop: ", lines[0])
        self.assertEqual(self.names("net"), ["seen.2.5020.1", "seen.2.5020.200", "seen.2.5020.5"])
        self.system("one", "2:5020/1", "TEST 2:5020/100 2:5020/5")
        self.put("net/seen.2.5020.77", b"SYSTEM 2:5020/77\n")
        self.assertEqual(self.say("net"), (0, ["net: 1 files, 2 seen"]))
        self.assertEqual(self.names("net"), ["one", "seen.2.5020.200", "seen.2.5020.5"])


class Link(Links):
    """A new link, and one that goes."""

    words = ("2:5020/200", "--host", "b.example:24555", "--password", "secret42xx", "--areafix", "magicword", "--groups", "AB", "--plus")

    def test_all_lines(self):
        self.put("binkd.conf", b"domain fsxnet /x 21\ndomain fido7 /y 2\nnode 2:5020/1@fido7 h p")
        for _ in range(2):
            status, lines = self.say("link", *self.words, "test")
            self.assertEqual(status, 0)
            self.assertEqual(self.content("peers"), build.PEERS.encode() + b"PEER 2:5020/200 PASSWORD secret42 PLUS AREAFIX magicword GROUPS AB\n")
            self.assertTrue(self.content("binkd.conf").endswith(b"h p\nnode 2:5020/200@fido7 b.example:24555 secret42xx\n"))
            self.assertIn(b"AREA TEST  2:5020/1 2:31000/7 2:5020/200\r\n", self.content("links"))
        self.assertIn("mail to the sysop of 2:5020/200:", lines)
        self.assertNotIn("secret42", "\n".join(lines))
        self.assertNotIn("magicword", "\n".join(lines))

    def test_printed_node_line(self):
        self.assertEqual(self.say("link", *self.words)[1][0], "node 2:5020/200@fidonet b.example:24555 secret42xx")
        self.put("binkd.conf", b"")
        self.assertEqual(self.say("link", "2:5020/201", "--password", "abc")[1][0], "node 2:5020/201@fidonet - abc")
        self.assertEqual(self.content("binkd.conf"), b"")

    def test_what_contradicts(self):
        self.put("binkd.conf", b"node 2:5020/1@fidonet h -nr p\nnode 2:5020/7@x - -\n")
        for words, what in (
            (("2:5020/1", "--password", "other"), "2:5020/1 has a PEER line: edit peers"),
            (("2:5020/1", "--areafix", "magicword"), "2:5020/1 has a PEER line: edit peers"),
            (("2:5020/1", "--groups", "A"), "2:5020/1 has a PEER line: edit peers"),
            (("2:31000/7", "--password", "x"), "2:5020/100.7 has a PEER line: edit peers"),
            (("2:5020/7", "--host", "h"), "2:5020/7 has a node line: edit binkd.conf"),
            (("2:5020/7", "--password", "p"), "2:5020/7 has a node line: edit binkd.conf"),
        ):
            self.assertEqual(self.say("link", *words, "LAST"), (2, [LINE + what]))
        self.assertEqual((self.content("links"), self.content("peers")), (HUB, build.PEERS.encode()))
        self.assertEqual(self.say("link", "2:5020/1", "--plus", "LAST")[0], 0)

    def test_refused_words(self):
        for words in (
            ("--host", "a b"), ("--host", "-x"), ("--password", 'q"'), ("--areafix", "short"), ("--areafix", "y" * 36), ("--areafix", "two words"),
            ("--groups", "a"), ("--groups", "A1"), ("A B",), ("--none",),
        ):
            self.assertEqual(self.say("link", "2:5020/200", "TEST", *words)[0], 4, words)
        self.assertEqual(self.say("link", "2:5020/100", "TEST")[0], 2)
        self.assertEqual((self.content("links"), self.content("peers")), (HUB, build.PEERS.encode()))

    def test_unlink(self):
        self.put("binkd.conf", b"# mine\nnode 2:5020/1@fidonet h p\n")
        before = {name: self.content(name) for name in ("peers", "links", "binkd.conf")}
        self.say("link", *self.words, "TEST", "LAST")
        self.say("pause", "2:5020/200")
        self.say("subscribe", "2:5020/200", "OTHER", "--read-only")
        self.put("peers", self.content("peers") + b"READONLY TEST 2:5020/1 2:5020/200\n")
        self.put("packets/1.pkt", b"x")
        self.put("outbound/139c00c8.flo", ("^%s\n" % self.at("packets", "1.pkt")).encode())
        status, lines = self.say("unlink", "2:5020/200")
        self.assertEqual((status, lines), (0, ["unsubscribed 2:5020/200 OTHER", "1 packets wait for 2:5020/200"]))
        before["peers"] += b"READONLY TEST 2:5020/1\n"
        self.assertEqual({name: self.content(name) for name in before}, before)
        self.assertNotIn("paused", self.names())
        os.unlink(self.at("outbound", "139c00c8.flo"))
        self.assertEqual(self.say("unlink", "2:5020/200"), (0, []))


def accepting(*_: str, **__: object) -> Called:
    """A program that accepts all."""
    return Called(0, "", "")


class Killed(Stopping):
    """Commands that are stopped at each change of a file, and given again."""

    cuts = 2
    links = HUB.decode()
    binkd = b"node 2:5020/1@fidonet h p\n"

    def setUp(self) -> None:
        super().setUp()
        self.put("binkd.conf", self.binkd)
        patch = mock.patch.object(link_file, "call", accepting)
        patch.start()
        self.addCleanup(patch.stop)

    def give(self, function, disk, *words: str) -> None:
        """A command of this process."""
        station = Station(self.top, disk)
        with build.printed():
            try:
                function(station, list(words))
            finally:
                station.unlock()

    def each_is_whole(self, where: str) -> None:
        """Each file has its own lines whole."""
        self.assertTrue(self.content("links").startswith(HUB[:40]), where)
        self.assertTrue(self.content("peers").startswith(build.PEERS.encode()), where)
        self.assertTrue(self.content("binkd.conf").startswith(self.binkd), where)


class LinkAndUnlink(Killed):
    """A link comes."""

    def run_once(self, disk=None) -> None:
        self.give(linking.link, disk, "2:5020/200", "--host", "h", "--password", "p", "TEST", "OTHER", "--force")

    def look(self, where: str) -> None:
        self.each_is_whole(where)
        self.assertEqual(self.content("links").count(b" 2:5020/200"), 2, where)
        self.assertEqual(self.content("peers").count(b"PEER 2:5020/200 PASSWORD p\n"), 1, where)
        self.assertEqual(self.content("binkd.conf").count(b"node 2:5020/200@fidonet h p\n"), 1, where)

    def test_each_place(self):
        self.assertGreater(self.stop_everywhere(), 12)


class SecondNames(Killed):
    """After a power cut a file may have its new name and its old one."""

    def test_a_file_with_two_names_stays_whole(self):
        signal.alarm(60)  # who locks the file twice waits for ever
        self.addCleanup(signal.alarm, 0)
        begin, place = copy_state(self.top), 0
        while True:
            place += 1
            put_state(self.top, begin)
            for name in ("links", "peers", "binkd.conf"):
                os.link(self.at(name), self.at(name + ".new"))
            try:
                LinkAndUnlink.run_once(self, StoppingDisk(self.top, place))
                break
            except Stop:
                self.each_is_whole("place %d" % place)
                self.assertGreaterEqual(len(self.content("links")), len(HUB), place)
        self.assertEqual(self.content("links").count(b" 2:5020/200"), 2)
        self.assertGreater(place, 12)


class Unlinked(Killed):
    """A link goes."""

    def setUp(self) -> None:
        super().setUp()
        for name in ("peers", "binkd.conf", "links"):
            self.put("old." + name, self.content(name))
        LinkAndUnlink.run_once(self)
        self.put("peers", self.content("peers") + b"READONLY TEST 2:5020/200\n")

    def run_once(self, disk=None) -> None:
        self.give(linking.unlink, disk, "2:5020/200")

    def look(self, where: str) -> None:
        for name in ("peers", "binkd.conf", "links"):
            self.assertEqual(self.content(name), self.content("old." + name), (where, name))

    def test_each_place(self):
        self.assertGreater(self.stop_everywhere(), 10)


class ReadOnly(Killed):
    """No kill leaves a link that may post."""

    repeats = 0

    def run_once(self, disk=None) -> None:
        self.give(subscriptions.subscribe, disk, "2:5020/200", "TEST", "--read-only", "--force")

    def look(self, where: str) -> None:
        if b"2:5020/200" in self.content("links"):
            self.assertIn(b"READONLY TEST 2:5020/200\n", self.content("peers"), where)

    def test_each_place(self):
        self.assertGreater(self.stop_everywhere(), 6)


if __name__ == "__main__":
    unittest.main()
