"""What a sysop does by hand: retoss, accept, status, doctor, new, publish."""
import os
import re
import shutil
import stat
import subprocess
import time
import unittest

import build
from build import echomail, packet, stored

WHOLE = "filed %d known %d notecho 0 badtag 0 noarea %d notlinked 0"


class Handwork(build.StationCase):
    """A station with a base."""

    def setUp(self) -> None:
        super().setUp()
        os.makedirs(self.at("base"))

    def say(self, *words: str) -> tuple[int, list[str]]:
        """Runs the program. Returns its status and what it printed."""
        ran = self.run_tool(*words)
        return ran.returncode, (ran.stdout + ran.stderr).decode().split("\n")[:-1]

    def bring(self, content: bytes, name: str = "1.pkt") -> tuple[int, list[str]]:
        """Lets a packet arrive, and tosses."""
        self.put("inbound/" + name, content)
        return self.say("toss")


class Retoss(Handwork):
    """Tries again."""

    def test_by_its_password(self):
        self.put("peers", b"PEER 2:5020/1 PASSWORD other\n")
        self.assertEqual(self.bring(packet(echomail(1))), (1, ["put aside 1.pkt: gate: wrong packet password of 2:5020/1"]))
        self.assertEqual(self.say("retoss")[0], 1)
        self.put("peers", build.PEERS.encode())
        self.assertEqual(self.say("retoss"), (0, ["retoss 1 files", WHOLE % (1, 0, 0)]))
        self.assertEqual(self.names("bad"), [])

    def test_without_the_password_that_was_taken_off(self):
        self.put("links", b"SYSTEM 2:5020/100\nAREA TEST 2:5020/2\n")
        status, lines = self.bring(packet(echomail(1)))
        self.assertEqual((status, lines), (1, ["put aside 1.pkt: 1 message not from a link of TEST (subscribe 2:5020/1 TEST)"]))
        self.put("links", build.LINKS.encode())
        self.assertEqual(self.say("retoss", "1.pkt"), (0, ["retoss 1 files", WHOLE % (1, 0, 0)]))
        self.assertEqual((self.names("bad"), self.names("tossing"), self.names("gate")), ([], [], []))

    def test_only_the_named(self):
        for name in ("1.pkt", "2.pkt"):
            self.bring(packet(echomail(1), password=b""), name)
        shutil.copy(self.at("bad", "1.pkt"), self.at("bad", "odd name.pkt"))
        self.assertEqual(self.say("retoss", "odd name.pkt")[1][0], "retoss 1 files")
        self.assertEqual(self.say("retoss", "nothing.pkt"), (4, ["echonet-station: no file nothing.pkt in bad"]))

    def test_bundle(self):
        content = build.zipped(("a", packet(echomail(1))), ("b", b"hello"))
        self.bring(content, "1.su0")
        status, lines = self.say("retoss")
        self.assertEqual(status, 1)
        self.assertEqual(sorted(lines), sorted(["retoss 1 files", "put aside 1.su0: gate: member 2: no packet", WHOLE % (0, 1, 0)]))


class Accept(Handwork):
    """New areas."""

    def test_one_word(self):
        self.bring(packet(echomail(1), echomail(2, tag=b"NEW"), echomail(3, tag=b"NEW")))
        self.assertEqual(self.say("accept"), (0, ["new area NEW from 2:5020/1 2 messages"]))
        status, lines = self.say("accept", "new")
        self.assertEqual((status, lines), (0, ["accepted AREA NEW 2:5020/1", "retoss 1 files", WHOLE % (2, 1, 0)]))
        self.assertEqual(self.content("links"), build.LINKS.encode() + b"AREA NEW 2:5020/1\n")
        self.assertEqual(self.say("accept"), (0, []))
        self.assertIn(b" accepted AREA NEW 2:5020/1\n", self.content("log"))

    def test_a_stranger_has_to_be_named(self):
        self.bring(packet(echomail(1, tag=b"NEW"), by=(2, 5020, 9, 0)))
        self.assertEqual(self.say("accept"), (0, ["new area NEW from 2:5020/9 1 messages, a stranger"]))
        self.assertEqual(self.say("accept", "NEW")[0], 2)
        self.assertEqual(self.content("links"), build.LINKS.encode())
        self.assertEqual(self.say("accept", "NEW", "2:5020/9")[0], 0)

    def test_two_senders(self):
        self.put("links", (build.LINKS + "AREA B 2:5020/2").encode())
        self.bring(packet(echomail(1, tag=b"NEW")))
        self.bring(packet(echomail(2, tag=b"NEW"), by=(2, 5020, 2, 0)), "2.pkt")
        status, lines = self.say("accept", "NEW")
        self.assertEqual(status, 2)
        self.assertEqual(lines, ["echonet-station: NEW comes from 2:5020/1 2:5020/2: name one, or add the line by hand"])
        self.say("accept", "NEW", "2:5020/2")
        self.assertTrue(self.content("links").endswith(b"AREA B 2:5020/2\nAREA NEW 2:5020/2\n"))

    def test_nobody_sends_it(self):
        self.assertEqual(self.say("accept", "NEW")[0], 2)
        self.assertEqual(self.say("accept", "NEW", "x")[0], 4)

    def test_a_refused_line(self):
        """`echonet` judges the new file before it replaces the old one."""
        self.bring(packet(echomail(1, tag=b"NEW")))
        text = build.LINKS + "AREA BAD 2:5020/1 2:5020/1\n"
        self.put("links", text.encode())
        status, lines = self.say("accept", "NEW")
        self.assertEqual((status, self.content("links"), self.names("bad")), (2, text.encode(), ["1.pkt", "1.pkt.why"]))
        self.assertIn("L6 RepeatedLink", lines[0])
        self.assertNotIn("links.new", self.names())

    def test_a_point(self):
        self.bring(build.header(by=(2, 5020, 100, 7), plus=True) + echomail(1, tag=b"NEW") + build.END)
        self.assertEqual(self.say("accept"), (0, ["new area NEW from 2:31000/7 1 messages"]))
        self.assertEqual(self.say("accept", "NEW")[1][0], "accepted AREA NEW 2:5020/100.7")
        self.assertIn(b" accepted AREA NEW 2:5020/100.7\n", self.content("log"))
        self.assertIn(b"AREA NEW 2:31000/7\n", self.content("links"))

    def test_at_once(self):
        tags = ["NEW%d" % number for number in range(6)]
        self.bring(packet(*(echomail(number, tag=tag.encode()) for number, tag in enumerate(tags))))
        words = [build.sys.executable, build.TOOL, self.top, "accept"]
        runs = [subprocess.Popen([*words, tag], stdout=subprocess.DEVNULL, stderr=subprocess.DEVNULL) for tag in tags]
        for run in runs:
            run.wait(600)
        for tag in tags:  # those that found nothing in bad/ while another run had it
            self.say("accept", tag)
        found = re.findall(rb"^AREA (NEW[0-9]) ", self.content("links"), re.M)
        self.assertEqual(sorted(found), [tag.encode() for tag in tags])
        self.assertTrue(self.content("links").startswith(build.LINKS.encode()))


class Status(Handwork):
    """The lines of `status`."""

    def lines(self) -> dict[str, list[str]]:
        """The lines by their first words, and the status."""
        status, lines = self.say("status")
        found: dict[str, list[str]] = {"status": [str(status)]}
        for line in lines:
            found.setdefault(line.split(" ")[0], []).append(line)
        return found

    def age(self, name: str, seconds: int) -> None:
        """Makes a file that is old, whatever the system says of its last change."""
        os.utime(self.at(name), (time.time() - seconds,) * 2)

    def test_good(self):
        self.bring(packet(echomail(1)))
        found = self.lines()
        self.assertEqual(found["status"], ["0"])
        self.assertEqual(found["station"], ["station 2:5020/100 " + self.top])
        self.assertEqual(found["area"], ["area TEST messages 1 waiting 1 purged 0"])
        self.assertEqual(found["scan"], ["scan never"])
        self.assertRegex(found["toss"][0], r"^toss [0-9]+s ago$")
        self.assertRegex(found["disk"][0], r"^disk [0-9]+ MB free$")
        self.assertNotIn("hand", found)

    def test_links(self):
        for path in ("outbound/139c0001.flo", "outbound.001/000a0002.hlo", "outbound/139c0064.pnt/00000007.flo"):
            self.put("packets/%s.pkt" % path[-8:], b"x" * 10)
            self.put(path, ("^%s\n^/gone.pkt\n~/sent.pkt\n" % self.at("packets", path[-8:] + ".pkt")).encode())
        self.put("outbound/139c0001.bsy", b"1")
        found = self.lines()
        self.assertEqual([line.rsplit(" ", 1)[0] for line in found["link"]], ["link %s packets 1 bytes 10 oldest" % it for it in ("1:10/2", "2:5020/1", "2:5020/100.7")])
        self.assertRegex(found["held"][0], "^held 2:5020/1 [0-9]+s$")
        self.assertIn("hand link 2:5020/100.7: 1 packets of its flow file are gone", found["hand"])
        self.assertEqual(found["status"], ["1"])

    def test_bad(self):
        self.bring(packet(echomail(1, tag=b"NEW")))
        self.put("netmail/2.msg", stored(b"x"))
        found = self.lines()
        self.assertEqual(found["bad"], ["bad 1 files, first 1.pkt: 1 message for areas that you do not have: NEW (accept NEW)"])
        self.assertEqual(found["new"], ["new area NEW from 2:5020/1 1 messages"])
        self.assertEqual(found["hand"], ["hand bad: see bad/*.why, then retoss"])
        self.assertEqual(found["status"], ["1"])

    def test_refused_base(self):
        with open(self.at("base", "messages.0"), "wb") as file:
            file.write(b"x")
        self.bring(packet(echomail(1)))
        shutil.rmtree(self.at("base"))
        self.put("base", b"no base")
        found = self.lines()
        self.assertRegex(found["hand"][0], r"^hand base: echonet: F[0-9] ")

    def test_late(self):
        """What is late, by a clock that is ahead."""
        self.put("inbound/a.pkt", packet())
        self.put("inbound/b.su0", b"")
        self.put("inbound/c.bad", b"")
        self.put("inbound/d.tic", b"")
        self.put("tossing/00000001.pkt", packet())
        self.put("netmail/2.msg", stored(b"x"))
        self.put("outbound/139c0001.bsy", b"1")
        from echonet_station import status as module
        from echonet_station.station import Station

        self.addCleanup(setattr, module, "time", module.time)
        module.time = type("Ahead", (), {"time": staticmethod(lambda: time.time() + 4000)})
        with build.printed() as out:
            self.assertEqual(module.status(Station(self.top), []), 1)
        lines = out.lines()
        for line in (
            "left a.pkt 66m: not tossed: does toss run?",
            "left b.su0 66m: bundle: does toss run?",
            "left c.bad 66m: check-pkthdr of binkd: the sender is not the session's",
            "waits tossing 1 files",
            "letters unsent 1, first 2.msg",
            "hand left a.pkt",
            "hand link 2:5020/1 is held for 66m",
            "hand 1 files in tossing",
            "hand unsent letters",
        ):
            self.assertIn(line, lines)
        self.assertNotIn("d.tic", out.getvalue())


class New(Handwork):
    """A new station, and what the doctor says."""

    words = ("2:5020/9999", "My system", "2:5020/1", "bbs.example.net:24555", "secretpassword", "ru.test", "TWO")

    def setUp(self) -> None:
        super().setUp()
        shutil.rmtree(self.top)

    def test_all_is_good(self):
        status, lines = self.say("new", *self.words)
        self.assertEqual((status, lines[0]), (0, "made %s: links, peers, base, binkd.conf" % self.top))
        links = b"SYSTEM 2:5020/9999\nNAME My system\nAREA RU.TEST 2:5020/1\nAREA TWO 2:5020/1\n"
        self.assertEqual(self.content("links"), links)
        self.assertEqual(self.content("peers"), b"PEER 2:5020/1 PASSWORD secretpa PLUS\nROUTE 2:5020/1\n")
        for name in ("links", "peers", "binkd.conf"):
            self.assertEqual(stat.S_IMODE(os.stat(self.at(name)).st_mode), 0o600)
        status, lines = self.say("doctor")
        self.assertEqual((status, [line for line in lines if not line.startswith(("good ", "looks at ", "note 7z: "))]), (0, []))
        self.assertIn("good binkd: node 2:5020/1", lines)
        mailer = self.content("binkd.conf").decode().split("\n")
        self.assertTrue({'sysname "My system"', 'sysop "My system"'} <= set(mailer))
        self.assertIn('exec "%s %s run" *.pkt *.ask *.ids *.mo? *.tu? *.we? *.th? *.fr? *.sa? *.su?' % (build.TOOL, self.top), mailer)
        self.assertEqual(self.say("status")[0], 0)
        self.assertEqual(self.say("toss"), (0, []))

    def test_sysop(self):
        for option in (("--sysop", "Ann Onym"), ("--sysop=Ann Onym",)):
            self.assertEqual(self.say("new", *option, *self.words)[0], 0)
            self.assertTrue({'sysname "My system"', 'sysop "Ann Onym"'} <= set(self.content("binkd.conf").decode().split("\n")))
            shutil.rmtree(self.top)
        for word in ('quo"te', "a\nb", "a\\b"):
            self.assertEqual(self.say("new", "--sysop", word, *self.words)[0], 4)
        self.assertEqual(self.say("new", "--sysop=A", "--sysop=B", *self.words)[0], 4)
        self.assertEqual(self.names(), [])

    def test_without_7z(self):
        """That is a note, and nothing bad."""
        self.say("new", *self.words)
        tools = os.path.join(self.work, "tools")
        os.mkdir(tools)
        os.symlink(build.program(), os.path.join(tools, "echonet"))
        ran = self.run_tool("doctor", env={"PATH": tools})
        notes = [line for line in ran.stdout.decode().split("\n") if not line.startswith(("good ", "looks at ")) and line]
        self.assertEqual((ran.returncode, notes), (0, ["note 7z: bundles of arj, lzh and 7z go to bad/"]))

    def test_nothing_is_overwritten(self):
        for name in ("links", "peers", "binkd.conf", "base"):
            build.put(self.at(name), b"mine")
            self.assertEqual(self.say("new", *self.words)[0], 2, name)
            self.assertEqual((self.names(), self.content(name)), ([name], b"mine"))
            os.unlink(self.at(name))
        build.put(self.at("base", "messages.0"), b"mine")
        self.assertEqual(self.say("new", *self.words)[0], 2)

    def test_refused_words(self):
        for place, word in ((0, "x"), (2, "2:5020"), (3, "a b"), (4, "two words"), (4, 'quo"te'), (1, 'quo"te'), (1, "a\nb")):
            words = list(self.words)
            words[place] = word
            self.assertEqual(self.say("new", *words)[0], 4, word)
        self.assertEqual(self.say("new", *self.words[:5])[0], 4)
        self.assertEqual(self.say("new", *self.words[:5], "A\nAREA")[0], 4)
        status, lines = self.say("new", *self.words[:5], "x" * 61)
        self.assertEqual((status, len(lines)), (2, 2))
        self.assertTrue(lines[0].startswith("echonet-station: links:3: L7 BadTag 'XX"), lines)
        self.assertTrue(lines[1].startswith("echonet: note: links:3: bad tag 'XX"), lines)
        self.assertEqual(self.names(), [])


class Doctor(Handwork):
    """What is not good."""

    def test_marks(self):
        self.put("links", b"SYSTEM 2:5020/100\nAREA TEST 2:5020/1 2:5020/2 2:5020/3\n")
        self.put("peers", b"PEER 2:5020/1 PASSWORD x\nPEER 2:5020/2\nPEER 2:5020/4\n")
        os.chmod(self.at("peers"), 0o644)
        self.put("binkd.conf", b"inbound /elsewhere\n")
        status, lines = self.say("doctor")
        self.assertEqual(status, 1)
        for begin in (
            "BAD  peers is closed to others: chmod 600 peers",
            "good link 2:5020/1 has a packet password",
            "BAD  link 2:5020/2 has a packet password: ",
            "BAD  link 2:5020/3 has a PEER line: ",
            "BAD  peer 2:5020/4 is a link: ",
            "BAD  binkd: inbound: ",
            "BAD  binkd: inbound-nonsecure: ",
            "BAD  binkd: check-pkthdr all .bad: ",
            "BAD  binkd: exec for bundles: ",
            "BAD  binkd: domain: ",
            "BAD  binkd: node 2:5020/1: ",
        ):
            self.assertTrue(any(line.startswith(begin) for line in lines), begin)
        self.assertFalse([name for name in self.names() if "probe" in name])

    def test_faulty_files(self):
        self.put("peers", b"PEER x\n")
        self.assertIn("BAD  peers: peers:1: K3 BadAddress", self.say("doctor")[1])
        os.unlink(self.at("peers"))
        self.assertEqual(self.say("doctor")[0], 1)

    def test_a_faulty_link_file(self):
        """The note names the file and the line, and says what is expected."""
        self.put("links", b"SYSTEM 2:5020/100\nAREA TEST x\n")
        path = self.at("links")
        wanted = ["BAD  link file: %s:2: L2 BadAddress 'x'" % path, "echonet: note: %s:2: bad address 'x', expected zone:net/node" % path]
        self.assertEqual(self.say("doctor")[1][:2], wanted)
        os.unlink(path)
        wanted = ["BAD  link file: echonet: cannot use %s" % path, "echonet: note: %s: no such file" % path]
        self.assertEqual(self.say("doctor")[1][:2], wanted)


class Publish(Handwork):
    """The link file for others."""

    links = "; mine\nSYSTEM 2:5020/100\nNAME Me\n\nAREA TEST 2:5020/1 2:31000/7\nAREA POINTS 2:31000/7\n"

    def test_without_points(self):
        wanted = ["SYSTEM 2:5020/100", "NAME Me", "AREA TEST 2:5020/1", "AREA POINTS"]
        self.assertEqual(self.say("publish"), (0, wanted))


if __name__ == "__main__":
    unittest.main()
