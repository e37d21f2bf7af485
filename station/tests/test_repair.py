"""Rounds of repair: stations whose mailer is this test, which moves what the flow files name."""
from __future__ import annotations

import itertools
import os
import re
import shutil
import subprocess
import unittest
from os.path import exists, join

import build

ADDRESS = "1:10/%d"
FLOW = re.compile(r"([0-9a-f]{4})([0-9a-f]{4})\.flo")


def faults(ran: subprocess.CompletedProcess) -> bytes:
    """What a run printed on its standard error, without notes on new bases."""
    return re.sub(rb"echonet: note: .*: new base\n", b"", ran.stderr)


class Net(build.StationCase):
    """Stations 1:10/N in a net."""

    shape = {1: (2,), 2: (1, 3), 3: (2,)}

    def setUp(self) -> None:
        super().setUp()
        self.posted: set[int] = set()
        for number, links in self.shape.items():
            self.make(number, links)

    def make(self, number: int, links, with_base=True) -> None:
        """A station."""
        for folder in ("inbound", "base") if with_base else ("inbound",):
            os.makedirs(self.of(number, folder), exist_ok=True)
        self.link(number, links)

    def link(self, number: int, links) -> None:
        """The link file of a station."""
        words = " ".join([ADDRESS % link for link in links])
        build.put(self.of(number, "links"), ("SYSTEM %s\nNAME n\nAREA TEST %s\n" % (ADDRESS % number, words)).encode())

    def of(self, number: int, *names: str) -> str:
        """A path of a station."""
        return join(self.work, str(number), *names)

    def call(self, number: int, *words: str, given=b"") -> subprocess.CompletedProcess:
        """A run of a station."""
        return subprocess.run([build.TOOL, self.of(number), *words], input=given, capture_output=True, check=False, timeout=600)

    def good(self, number: int, *words: str, given=b"") -> str:
        """A run that ends with 0."""
        ran = self.call(number, *words, given=given)
        self.assertEqual((ran.returncode, faults(ran)), (0, b""), words)
        return ran.stdout.decode()

    def post(self, number: int, subject: str) -> None:
        """A posting."""
        self.good(number, "post", "TEST", "All", "Ann", subject, given=b"Body\n")
        self.posted.add(number)

    def deliver(self, lost=()) -> int:
        """Moves what the flow files name. Returns how many files. Those to or from `lost` are lost."""
        count = 0
        for number in self.shape:
            for name in build.names_in(self.of(number, "outbound")):
                found = FLOW.fullmatch(name)
                if not found:
                    continue
                flow = self.of(number, "outbound", name)
                receiver = int(found[2], 16)
                for line in build.content(flow).decode().split():
                    self.assertTrue(line.startswith("^"), line)
                    count += 1
                    if number in lost or receiver in lost or not exists(self.of(receiver)):
                        os.unlink(line[1:])
                    else:
                        os.rename(line[1:], self.of(receiver, "inbound", os.path.basename(line)))
                os.unlink(flow)
        return count

    def run_all(self, lost=()) -> None:
        """Until nothing moves. Only stations run that have something to do."""
        self.deliver(lost)
        while True:
            busy = [number for number in self.shape if build.names_in(self.of(number, "inbound")) or number in self.posted]
            self.posted.clear()
            for number in busy:
                for word in ("toss", "scan"):
                    self.good(number, word)
            if not self.deliver(lost):
                return

    def round_of(self, number: int) -> tuple[int, list[str]]:
        """A round of a station, with runs of its neighbours."""
        begun = self.call(number, "repair")
        self.assertEqual((begun.returncode, faults(begun)), (1, b""), begun.stdout)
        self.run_all()
        return self.look(number)

    def look(self, number: int, *words: str) -> tuple[int, list[str]]:
        """The status and the lines of a repair."""
        ran = self.call(number, "repair", *words)
        self.assertEqual(faults(ran), b"")
        return ran.returncode, ran.stdout.decode().split("\n")[:-1]

    def count(self, number: int) -> int:
        """The messages of a base."""
        listed = subprocess.run([build.program(), "list", self.of(number, "base")], capture_output=True, check=True)
        return len(re.findall(rb"^message ", listed.stdout, re.M))

    def counts(self) -> list[int]:
        """The messages of all bases."""
        return [self.count(number) for number in self.shape]


class Rounds(Net):
    """Whole rounds."""

    def test_lost_link(self):
        self.post(1, "one")
        self.run_all(lost=(3,))
        self.post(3, "three")
        self.run_all(lost=(3,))
        self.assertEqual(self.counts(), [1, 1, 1])
        status, lines = self.round_of(3)
        self.assertEqual(lines, ["link 1:10/2 TEST: received 1, new 1; sent 1, lacking 1", "new 1, lacking 1"])
        self.assertEqual((status, self.counts()), (1, [2, 2, 2]))
        self.assertEqual(self.round_of(3), (0, ["link 1:10/2 TEST: received 0, new 0; sent 0, lacking 0", "in order"]))

    def test_all_stations(self):
        """Each station does a round, until all are in order."""
        for number in self.shape:
            self.post(number, "from %d" % number)
        self.run_all(lost=(1, 2, 3))
        for _ in range(3):
            statuses = [self.round_of(number)[0] for number in self.shape]
        self.assertEqual((statuses, self.counts()), ([0, 0, 0], [3, 3, 3]))

    def test_lost_base(self):
        for number in self.shape:
            self.post(number, "from %d" % number)
        self.run_all()
        subprocess.run(["rm", "-r", self.of(2, "base")], check=True)
        status, lines = self.round_of(2)
        self.assertEqual((status, lines[-1]), (1, "new 3, lacking 0"))
        self.assertEqual(self.counts(), [3, 3, 3])
        self.assertEqual(self.round_of(2)[0], 0)

    def test_post_after_a_loss(self):
        """A station that lost its base, or that has an older one, does not post before it is repaired."""
        for number in (2, 2, 1):
            self.post(number, "from %d" % number)
        self.run_all()
        words = ("post", "TEST", "All", "Ann", "too early")
        os.rename(self.of(2, "base"), self.of(2, "kept"))
        for is_folder in (False, True):
            ran = self.call(2, *words, given=b"Body\n")
            self.assertEqual((ran.returncode, b"had 3: it was lost or restored" in ran.stderr), (2, True), ran.stderr)
            self.good(2, "scan")
            if not is_folder:
                os.unlink(self.of(2, "base"))
                os.mkdir(self.of(2, "base"))
        # A reader's message waits.
        build.put(self.of(2, "read", "90.msg"), build.stored(b"Waits\r", by=(1, 10, 2, 0), to=(0, 0, 0, 0)), age=10)
        ran = self.call(2, "read", "TEST", self.of(2, "read"))
        self.assertEqual((ran.returncode, b"it was lost or restored" in ran.stderr), (2, True), ran.stderr)
        self.assertIn("90.msg", build.names_in(self.of(2, "read")))
        self.assertIn("hand base: 0 messages, and had 3: repair it before you post\n", self.call(2, "status").stdout.decode())
        self.assertEqual(self.round_of(2)[1][-1], "new 3, lacking 0")
        self.assertEqual(self.round_of(2)[0], 0)
        self.assertIn("posted TEST", self.good(2, "read", "TEST", self.of(2, "read")))
        self.post(2, "in time")
        self.run_all()
        self.assertEqual(self.counts(), [5, 5, 5])
        # A message that nobody else has is lost for good. Once the station is in order, it may post.
        build.put(self.of(2, "count"), b"9\n")
        self.assertEqual(self.call(2, *words, given=b"Body\n").returncode, 2)
        self.assertEqual(self.round_of(2)[0], 0)
        self.post(2, "again")
        build.put(self.of(2, "count"), b"damaged")
        self.post(2, "at once")

    def test_two_areas(self):
        """A link lacks messages of two areas. Its packets of a round do not replace each other."""
        for number, links in self.shape.items():
            words = " ".join([ADDRESS % link for link in links])
            lines = "".join("AREA %s %s\n" % (tag, words) for tag in ("TEST", "NEWS"))
            build.put(self.of(number, "links"), ("SYSTEM %s\n%s" % (ADDRESS % number, lines)).encode())
        self.post(2, "two")
        self.good(2, "post", "NEWS", "All", "Ann", "two", given=b"Body\n")
        self.run_all(lost=(1, 3))
        self.assertEqual(self.round_of(2)[1][-1], "new 0, lacking 4")
        self.assertEqual(self.counts(), [2, 2, 2])
        self.assertEqual(self.round_of(2)[0], 0)

    def test_no_base_at_a_link(self):
        self.post(1, "one")
        self.run_all()
        subprocess.run(["rm", "-r", self.of(3, "base")], check=True)
        self.assertEqual(self.round_of(2)[1][-1], "new 0, lacking 1")
        self.assertEqual(self.counts(), [1, 1, 1])

    def test_no_answer(self):
        """A link that does not answer, and one that has nothing to send."""
        self.post(2, "two")
        self.run_all()
        self.call(2, "repair")
        self.deliver(lost=(3,))
        self.run_all()
        status, lines = self.look(2)
        self.assertEqual((status, lines[0]), (1, "link 1:10/1 TEST: received 0, new 0; sent 0, lacking 0"))
        self.assertRegex(lines[1], "^link 1:10/3 TEST: no answer, asked [0-9]+s ago$")
        self.assertEqual(lines[2], "open: 1 without an answer, 0 on the way")
        self.assertRegex(self.call(2, "status").stdout.decode(), r"\nrepair since [0-9]+s, 1 of 2 answered\n")
        status, lines = self.look(2, "--all")
        self.assertEqual((status, lines[2:]), (1, ["sent all 1 messages to 1:10/3 TEST, which did not answer",
                                                    "new 0, lacking 0; 1 did not answer"]))
        self.assertEqual(self.round_of(2)[0], 0)

    def answered_packet(self) -> str:
        """The packet in the inbound of station 2 that answers its question for a message that it lost."""
        self.post(1, "one")
        self.run_all(lost=(2,))
        self.call(2, "repair")
        while True:
            packets = [name for name in build.names_in(self.of(2, "inbound")) if name.endswith(".pkt")]
            if packets:
                [name] = packets
                return name
            self.deliver()
            for number in (1, 3):
                self.good(number, "scan")

    def test_stopped_toss(self):
        """A toss that was stopped does not hide what was new."""
        name = self.answered_packet()
        words = ("toss", self.of(2, "links"), self.of(2, "base"), self.of(2, "inbound", name))
        subprocess.run([build.program(), *words], stdout=subprocess.DEVNULL, check=True)
        build.put(self.of(2, "repair", "tossing"), b"")
        status, lines = self.look(2)
        self.assertEqual((status, lines[-1]), (1, "a toss was stopped in this round, so its counts may be too small"))
        self.run_all()
        self.assertEqual(self.round_of(2)[0], 0)

    def test_repeated_packet(self):
        """The packet of an answer comes twice. What the first one brought counts."""
        name = self.answered_packet()
        packet = build.content(self.of(2, "inbound", name))
        self.run_all()
        build.put(self.of(2, "inbound", name), packet)
        self.assertEqual(self.look(2)[1][-1], "new 1, lacking 0")

    def test_without_id(self):
        """A message without an id goes in each round. It is known, and the stations are in order."""
        text = b"AREA:TEST\rNo id\r--- x\r * Origin: o (1:10/1)\rSEEN-BY: 10/1\r\1PATH: 10/1\r"
        content = build.message(text, nets=(10, 10), nodes=(1, 2))
        build.put(self.of(2, "inbound", "00000001.pkt"), build.header((1, 10, 1, 0), (1, 10, 2, 0)) + content + build.END)
        self.good(2, "toss")
        self.round_of(2)
        status, lines = self.round_of(2)
        self.assertEqual((status, lines), (0, ["link 1:10/1 TEST: received 1, new 0; sent 1, lacking 0",
                                               "link 1:10/3 TEST: received 1, new 0; sent 1, lacking 0", "in order"]))

    def test_base_lost_in_a_round(self):
        self.post(2, "two")
        self.run_all()
        self.call(2, "repair")
        self.run_all()
        subprocess.run(["rm", "-r", self.of(2, "base")], check=True)
        status, lines = self.look(2)
        self.assertEqual((status, lines[-1]), (1, "the base lost messages of TEST in this round"))
        self.assertEqual(self.round_of(2)[1][-1], "new 1, lacking 0")

    def test_not_linked(self):
        """A link that lists the other in vain: the question is refused, and there is no answer."""
        self.link(3, ())
        self.call(2, "repair", "1:10/3")
        self.deliver()
        ran = self.call(3, "scan")
        self.assertEqual((ran.returncode, faults(ran)[:8], faults(ran)[-22:]), (1, b"refuses ", b".ask: not linked 1:10/2\n"[-22:]))
        self.assertEqual(build.names_in(self.of(3, "inbound")), [])
        self.assertIn("no answer", self.look(2)[1][0])

    def test_words(self):
        """What is not understood is refused, and another round is begun only if that is asked for."""
        for words in (("NEWS",), ("1:10/9",), ("--has",), ("--all", "--again")):
            self.assertEqual(self.call(2, "repair", *words).returncode, 4, words)
        self.assertFalse(exists(self.of(2, "repair", "round")))
        self.assertEqual(self.look(2, "test", "1:10/1"), (1, [self.asked(2, 1), "open: 1 questions"]))
        self.assertEqual(self.call(2, "repair", "1:10/3").returncode, 4)
        self.assertIn("no answer", self.look(2, "1:10/1")[1][0])
        self.assertEqual(self.look(2, "--again", "1:10/3")[1], ["repair: the round was given up", self.asked(2, 3), "open: 1 questions"])

    @staticmethod
    def asked(_: int, link: int) -> str:
        """The line of a question."""
        return "asked %s TEST" % (ADDRESS % link)


class Stray(Net):
    """Rounds in which other packets come, too."""

    def setUp(self) -> None:
        super().setUp()
        self.serials = itertools.count(0xF0000000)
        build.put(self.of(2, "links"), build.content(self.of(2, "links")) + b"AREA OTHER 1:10/1\n")

    def stray(self, kind: str) -> None:
        """A packet that has nothing to do with the round."""
        header = build.header(by=(1, 10, 1, 0), to=(1, 10, 99 if kind == "other system" else 2, 0))
        tag = b"AREA:NEW" if kind == "new area" else b"AREA:OTHER"
        lines = tag + b"\r\1MSGID: 1:10/1 %08x\rHi\rSEEN-BY: 10/1\r\1PATH: 10/1\r" % next(self.serials)
        content = header + build.message(lines, nets=(10, 10), nodes=(1, 2)) + build.END
        build.put(self.of(2, "inbound", "%08x.pkt" % next(self.serials)), content[:-20] if kind == "cut" else content)

    def round_with(self, kinds: tuple[str, ...]) -> tuple[int, str]:
        """A round of the station in the middle, with stray packets in the run that tosses the answers."""
        self.call(2, "repair", "TEST")
        self.deliver()
        for number in (1, 3):
            self.good(number, "scan")
        self.deliver()
        for kind in kinds:
            self.stray(kind)
        ran = self.call(2, "repair")
        self.run_all()
        return ran.returncode, ran.stdout.decode().split("\n")[-2]

    def ids(self, number: int) -> set[str]:
        """The ids of an area of a station."""
        listed = subprocess.run([build.program(), "list", "--ids", "--area", "TEST", self.of(number, "base")], capture_output=True, check=True)
        return {line for line in listed.stdout.decode().split("\n") if line.startswith("id ")}

    def test_stray_packets(self):
        """They change no count, and the round that brings nothing is in order."""
        for kinds in (("other system",), ("cut", "new area"), ("good", "other system", "cut", "new area", "good")):
            for number in (1, 3):
                self.post(number, "of %d" % number)
            self.run_all(lost=(2,))
            shutil.rmtree(self.of(2, "base"))
            os.mkdir(self.of(2, "base"))
            wanted = self.ids(1) | self.ids(3)
            status, line = self.round_with(kinds)
            self.assertEqual((status, line.split(",")[0]), (1, "new %d" % len(wanted)), kinds)
            self.assertEqual(self.ids(2), wanted)
            self.assertEqual(self.round_with(kinds), (0, "in order"), kinds)

    def test_refused_message(self):
        """What an answer brought counts, also if another message of it was refused."""
        self.post(1, "one")
        self.run_all(lost=(2,))
        self.call(2, "repair", "TEST", "1:10/1")
        self.deliver()
        self.good(1, "scan")
        self.deliver()
        name = next(name for name in build.names_in(self.of(2, "inbound")) if name.endswith(".pkt"))
        lines = b"AREA:NEW\r\1MSGID: 1:10/1 000000aa\rHi\rSEEN-BY: 10/1\r\1PATH: 10/1\r"
        packet = build.content(self.of(2, "inbound", name))[:-2] + build.message(lines, nets=(10, 10), nodes=(1, 2)) + build.END
        build.put(self.of(2, "inbound", name), packet)
        ran = self.call(2, "repair")
        self.assertEqual((ran.returncode, ran.stdout.decode().split("\n")[0]), (1, "link 1:10/1 TEST: packet in bad"))
        self.call(2, "accept", "NEW", "1:10/1")
        self.assertEqual(build.names_in(self.of(2, "bad")), [])
        ran = self.call(2, "repair")
        self.assertEqual((ran.returncode, ran.stdout.decode().split("\n")[-2]), (1, "new 2, lacking 0"))


class Faulty(Net):
    """Lists that are damaged, of others, or no lists."""

    def test_lists(self):
        self.post(2, "two")
        good = b"area TEST\nend 0 messages, 0 without id\n"
        for name, content, reason in (
            ("1.10.1-1.10.2.00000001.ask", b"", "list line 1"),
            ("1.10.1-1.10.2.00000002.ask", b"area TEST\nend 1 messages, 0 without id\n", "list line 2"),
            ("1.10.1-1.10.2.00000003.ask", b"area NEWS\nend 0 messages, 0 without id\n", "not linked 1:10/1"),
            ("1.10.9-1.10.2.00000004.ask", good, "not linked 1:10/9"),
            ("1.10.1-1.10.2.00000005.0.ids", good, None),
            ("1.10.1-1.10.3.00000006.ask", good, None),
            ("1.10.1-1.10.2.0000007.ask", good, None),
            ("0.10.1-1.10.2.00000008.ask", good, None),
        ):
            build.put(self.of(2, "inbound", name), content)
            ran = self.call(2, "answer")
            shown = "refuses %s: %s\n" % (name, reason) if reason else ""
            self.assertEqual((ran.returncode, faults(ran).decode()), (1 if reason else 0, shown), name)
        self.assertEqual(build.names_in(self.of(2, "scanned")), [])
        left = ["0.10.1-1.10.2.00000008.ask", "1.10.1-1.10.2.0000007.ask", "1.10.1-1.10.3.00000006.ask"]
        self.assertEqual(build.names_in(self.of(2, "inbound")), left)

    def test_chosen_name(self):
        """A link that asks cannot have a packet of another link replaced."""
        self.post(2, "two")
        build.put(self.of(2, "packets", "00000001.pkt"), b"of another link")
        build.put(self.of(2, "inbound", "1.10.1-1.10.2.00000001.ask"), b"area TEST\nend 0 messages, 0 without id\n")
        self.good(2, "scan")
        self.assertEqual(build.content(self.of(2, "packets", "00000001.pkt")), b"of another link")
        flow = build.content(self.of(2, "outbound", "000a0001.flo")).decode().split()
        self.assertEqual((len(flow), [line for line in flow if not exists(line[1:])]), (3, []))

    def test_own_faults(self):
        """A fault of the own link file or base removes no list."""
        self.post(2, "two")
        name = "1.10.1-1.10.2.00000001.ask"
        build.put(self.of(2, "inbound", name), b"area TEST\nend 0 messages, 0 without id\n")
        links = build.content(self.of(2, "links"))
        build.put(self.of(2, "links"), links + b"FOO\n")
        self.assertEqual(self.call(2, "answer").returncode, 2)
        build.put(self.of(2, "links"), links)
        os.rename(self.of(2, "base"), self.of(2, "kept"))
        build.put(self.of(2, "base"), b"damaged")
        self.assertEqual(self.call(2, "answer").returncode, 2)
        os.unlink(self.of(2, "base"))
        os.rename(self.of(2, "kept"), self.of(2, "base"))
        self.assertEqual((build.names_in(self.of(2, "inbound")), build.names_in(self.of(2, "scanned"))), ([name], []))
        self.assertEqual(self.good(2, "answer"), "answered 1:10/1 TEST: 1 messages\n")
        self.assertEqual(build.names_in(self.of(2, "scanned")),
                         ["1.10.1.as-00000001.pkt", "1.10.1.as-1.10.2-1.10.1.00000001.1.ids"])

    def test_the_scan_hands_over(self):
        """Each file keeps its name. A second answer to a question replaces the first one."""
        self.post(2, "two")
        name = "1.10.1-1.10.2.00000001.ask"
        for _ in range(2):
            build.put(self.of(2, "inbound", name), b"area TEST\nend 0 messages, 0 without id\n")
            self.good(2, "scan")
        names = ["00000001.pkt", "1.10.2-1.10.1.00000001.1.ids"]
        flow = build.content(self.of(2, "outbound", "000a0001.flo")).decode().split()
        self.assertEqual([name for name in build.names_in(self.of(2, "packets")) if name in names], names)
        self.assertEqual([os.path.basename(line) for line in flow if os.path.basename(line) in names], names)
        self.assertEqual(len(flow), 3)


if __name__ == "__main__":
    unittest.main()
