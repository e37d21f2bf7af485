"""Letters that are written here, and those of neighbours that are passed on; read-only links, links on hold, rescans."""
import os
import unittest

import build
from build import echomail, header, message, stored
from fidonet.addresses import Address
from fidonet.rescanned import is_rescanned, seen_by_all
from fidonet.via import passed_by
from test_hand import Handwork
from test_stops import Stopping

PEERS = "PEER 2:5020/1 PASSWORD secret PASS\nPEER 2:5020/200 PASS\nPEER 2:5020/201\nROUTE 2:5020/1\nPOINT 2:31000/7 2:5020/100.7\n"
LINKS = "SYSTEM 2:5020/100\nAREA TEST 2:5020/1 2:5020/200 2:31000/7\nAREA NEWS 2:5020/1 2:5020/200\n"
DOWN = (2, 5020, 200, 0)


def letter(number: int, to: int, by: int = 200, lines: bytes = b"", point: int = 0, attributes: int = 1) -> bytes:
    """A letter between two nodes."""
    text = b"\x01INTL 2:5020/%d 2:5020/%d\r%s\x01MSGID: 2:5020/1 %08x\rletter %d\r" % (to, by, lines, number, number)
    text = text.replace(b"\r", b"\r\x01TOPT %d\r" % point, 1) if point else text
    return message(text, to=b"Bob", by=b"Ann", nodes=(by, to), attributes=attributes)


class Hub(Handwork):
    """A hub with an uplink, two downlinks and a point."""

    peers, links = PEERS, LINKS

    def come(self, *messages: bytes, by=DOWN, name: str = "1.pkt") -> tuple[int, list[str]]:
        """A packet that is tossed."""
        self.put("inbound/" + name, header(by=by, password=b"secret" if by[2] == 1 else b"") + b"".join(messages) + build.END)
        return self.say("toss")

    def sent(self, flow: str) -> bytes:
        """All that waits for a link."""
        path = self.at("outbound", flow)
        lines = build.content(path).decode().split("\n") if os.path.exists(path) else []
        return b"".join(build.content(line[1:]) for line in lines if line)


class Written(Hub):
    """The command `letter`."""

    def write(self, body: bytes, *words: str) -> tuple[int, list[str]]:
        """A letter with this body."""
        self.put("body", body)
        with open(self.at("body"), "rb") as file:
            ran = self.run_tool("letter", *words, stdin=file)
        return ran.returncode, (ran.stdout + ran.stderr).decode().split("\n")[:-1]

    def test_the_next_scan_sends_it(self):
        self.assertEqual(self.write(b"%LIST\n-TEST\n", "2:5020/1", "AreaFix", "My Name", "-secret word"), (0, ["wrote netmail/2.msg"]))
        self.assertEqual(self.say("scan")[0], 0)
        mail = self.sent("139c0001.flo")
        self.assertIn(b"AreaFix\0My Name\0-secret word\0", mail)
        self.assertIn(b"\x01INTL 2:5020/1 2:5020/100\r", mail)
        self.assertIn(b"\r%LIST\r-TEST\r\x01Via 2:5020/100 ", mail)
        self.assertNotIn(b"---", mail)
        self.assertEqual(self.write(b"x", "2:5020/77.3", "A", "B", "C")[1], ["wrote netmail/3.msg"])
        self.say("scan")
        self.assertIn(b"\x01INTL 2:5020/77 2:5020/100\r\x01TOPT 3\r", self.sent("139c0001.flo"))

    def test_charset(self):
        self.write("Привет\n".encode(), "2:5020/1", "Иван", "Я", "Тест")
        text = self.content("netmail", "2.msg")
        self.assertIn("\x01CHRS: UTF-8 4\rПривет\r".encode(), text)
        self.put("settings", b"CHARSET=CP866\n")
        self.write("Привет\n".encode(), "2:5020/1", "Иван", "Я", "Тест")
        text = self.content("netmail", "3.msg")
        self.assertIn(b"\x01CHRS: CP866 2\r" + "Привет\r".encode("cp866"), text)
        self.assertTrue(text[36:72].startswith("Иван".encode("cp866")))

    def test_a_stopped_run_left_a_second_name(self):
        self.write(b"first\n", "2:5020/1", "A", "B", "C")
        os.link(self.at("netmail", "2.msg"), self.at("letters", "written.new"))
        self.write(b"second\n", "2:5020/1", "A", "B", "C")
        texts = [self.content("netmail", name)[190:] for name in ("2.msg", "3.msg")]
        self.assertEqual([b"first\r" in texts[0], b"second\r" in texts[1], b"second" in texts[0]], [True, True, False])

    def test_refused(self):
        for words, status in (
            (("2:5020", "A", "B", "C"), 2), (("2:5020/1", "A" * 36, "B", "C"), 2), (("2:5020/1", "A", "B" * 36, "C"), 2),
            (("2:5020/1", "A", "B", "C" * 72), 2), (("2:5020/1", "A\n", "B", "C"), 2), (("2:5020/1", "A", "B"), 4), (("2:5020/1", "я" * 18, "B", "C"), 2),
        ):
            self.assertEqual(self.write(b"x", *words)[0], status, words)
        self.assertEqual(self.write(b"a\0b", "2:5020/1", "A", "B", "C")[0], 2)
        self.assertEqual(self.write(b"\xff", "2:5020/1", "A", "B", "C"), (2, ["echonet-station: not UTF-8: give --charset"]))
        self.assertEqual(self.names("netmail"), [])
        self.assertEqual(self.write(b"x", "2:5020/1", "A" * 35, "B" * 35, "C" * 71)[0], 0)


class Passed(Hub):
    """Letters of neighbours."""

    def test_both_ways_once(self):
        """The letter of an uplink for a downlink, and that of a downlink for a system far away; then both again."""
        for _ in range(2):
            self.assertEqual(self.come(letter(1, to=200, by=1), by=(2, 5020, 1, 0))[0], 0)
            self.assertEqual(self.come(letter(2, to=77), letter(3, to=100))[0], 0)
            self.assertEqual(self.say("scan")[0], 0)
            self.assertEqual(len(self.names("netmail")), 1)
        down, up = self.sent("139c00c8.flo"), self.sent("139c0001.flo")
        self.assertEqual((down.count(b"letter 1\r"), up.count(b"letter 2\r"), (down + up).count(b"letter 3\r")), (1, 1, 0))
        self.assertRegex(down, b"letter 1\r\x01Via 2:5020/100 @[0-9.]+UTC echonet\r\0")
        stays = [self.content("netmail", name) for name in self.names("netmail")]
        self.assertEqual([b"letter 3\r" in text for text in stays], [True])
        self.assertEqual(self.say("status")[0], 0)

    def test_a_point_of_a_peer_counts_as_its_boss(self):
        self.come(letter(1, to=200, by=1, point=3), by=(2, 5020, 1, 0))
        self.put("netmail/5.msg", stored(b"\x01TOPT 4\rmine\r", to=DOWN))
        self.say("scan")
        self.assertEqual((self.sent("139c00c8.flo").count(b"letter 1\r"), self.sent("139c00c8.flo").count(b"mine\r")), (1, 1))

    def test_who_has_no_pass(self):
        for to, by, advice in (
            (201, 200, "; add PASS to PEER 2:5020/201"), (77, 201, "; add PASS to PEER 2:5020/201"), (200, 201, "; add PASS to PEER 2:5020/201"), (77, 78, ""),
        ):
            status, lines = self.come(letter(to, to=to, by=by))
            why = "gate: 1 letters, the first for 2:5020/%d%s" % (to, advice)
            self.assertEqual((status, lines), (1, ["put aside 1.letters.pkt: " + why]))
            for name in self.names("bad"):
                os.unlink(self.at("bad", name))
        self.put("peers", PEERS.replace("ROUTE 2:5020/1\n", "").encode())
        self.assertIn("; add a ROUTE line", self.come(letter(9, to=77))[1][0])

    def test_retoss_after_pass(self):
        self.put("peers", PEERS.replace("/200 PASS", "/200").encode())
        self.come(letter(1, to=200, by=1), letter(2, to=200, by=1), by=(2, 5020, 1, 0))
        for _ in range(2):
            status, lines = self.say("retoss", "1.letters.pkt")
            self.assertEqual((status, lines[1]), (1, "put aside 1.letters.pkt: gate: 2 letters, the first for 2:5020/200; add PASS to PEER 2:5020/200"))
            self.assertEqual(self.names("bad"), ["1.letters.pkt", "1.letters.pkt.why"])
        self.put("peers", PEERS.encode())
        self.assertEqual(self.say("retoss"), (0, ["retoss 1 files", "letter 2.msg from 2:5020/1 to 2:5020/200", "letter 3.msg from 2:5020/1 to 2:5020/200"]))
        self.say("scan")
        self.assertEqual((self.sent("139c00c8.flo").count(b"letter "), self.names("bad"), self.names("netmail")), (2, [], []))

    def test_a_loop_of_two_hubs(self):
        for number, via in enumerate((b"2:5020/100", b"2:5020/100@fidonet.org @20261201.120000.UTC x", b"2:5020/100.0 @x", b"Prog 2:5020/100, x")):
            status, lines = self.come(letter(number, to=77, lines=b"\x01Via 2:5020/9 @x\r\x01Via %s\r" % via), name="%d.pkt" % number)
            self.assertEqual((status, len(lines)), (1, 1), via)
            self.assertTrue(lines[0].endswith("; a loop: passed here before"), lines)
        for number, via in enumerate((b"2:5020/100.7 @x", b"12:5020/100", b"2:5020/1001", b"2:5020/10 0")):
            self.assertEqual(self.come(letter(10 + number, to=77, lines=b"\x01Via %s\r" % via))[0], 0, via)
        self.assertEqual(self.come(letter(20, to=100, lines=b"\x01Via 2:5020/100\r"))[0], 0)

    def test_files_are_not_passed(self):
        for attributes in (0x11, 0x801):
            self.assertIn("; files and requests are not passed on", self.come(letter(1, to=77, attributes=attributes))[1][0])


class PassedAndKilled(Stopping):
    """A letter that is passed on: the gate and `letters` are stopped at each change of a file."""

    peers, links = PEERS, LINKS
    cuts = 3

    def setUp(self) -> None:
        super().setUp()
        self.put("inbound/1.pkt", header(by=DOWN) + letter(1, to=77) + letter(2, to=100) + build.END)
        for name in ("letters", "netmail", "scanned"):
            os.makedirs(self.at(name), exist_ok=True)

    def run_once(self, disk=None) -> None:
        self.gate(disk)
        self.outgoing(disk)

    def look(self, where: str) -> None:
        mail = b"".join(self.content("scanned", name) for name in self.names("scanned"))
        self.assertEqual((mail.count(b"letter 1\r"), mail.count(b"letter 2\r")), (1, 0), where)
        here = [self.content("netmail", name) for name in self.names("netmail")]
        self.assertEqual([text.count(b"letter 2\r") for text in here], [1], where)
        self.assertEqual((self.names("bad"), self.names("gate"), self.names("letters")), ([], [], []), where)

    def test_each_place(self):
        self.assertGreater(self.stop_everywhere(), 30)

    def test_the_gate_is_stopped_and_the_scan_goes_on(self):
        """Letters runs between a stop of the gate and its next run."""
        from stopping import Stop, StoppingDisk, copy_state, put_state

        begin, place = copy_state(self.top), 0
        while True:
            place += 1
            put_state(self.top, begin)
            try:
                self.gate(StoppingDisk(self.top, place))
                break
            except Stop:
                pass
            self.outgoing()
            for _ in range(2):
                self.run_once()
            self.look("place %d" % place)
        self.assertGreater(place, 15)


class ReadOnly(Hub):
    """What read-only links send is put aside."""

    peers = PEERS + "READONLY TEST 2:5020/200 2:5020/100.7\n"

    def test_its_messages_are_put_aside(self):
        status, lines = self.come(echomail(1), echomail(2, tag=b"news"), echomail(3, tag=b"test "), letter(4, to=100))
        self.assertEqual(status, 1)
        self.assertIn("put aside 1.readonly.pkt: gate: 2 messages of readonly TEST from 2:5020/200", lines)
        self.assertEqual(build.ids_in(self.content("bad", "1.readonly.pkt")), [1, 3])
        self.assertIn(b"filed 1 known 0", self.content("log"))
        self.assertEqual(self.come(echomail(5), by=(2, 5020, 1, 0))[0], 0)
        self.assertEqual(self.say("retoss")[1][1], "put aside 1.readonly.pkt: gate: 2 messages of readonly TEST from 2:5020/200")
        self.assertEqual(self.names("bad"), ["1.readonly.pkt", "1.readonly.pkt.why"])
        self.put("peers", PEERS.encode())
        self.assertEqual(self.say("retoss")[0], 0)
        self.assertIn("area TEST messages 3", "\n".join(self.say("status")[1]))

    def test_the_doctor_looks_for_other_links(self):
        lines = self.say("doctor")[1]
        self.assertIn("note readonly TEST 2:5020/200: no link file in net tells whether it has other links", lines)
        self.assertIn("good readonly TEST 2:5020/100.7", lines)
        self.put("net/a", b"SYSTEM 2:5020/200\nAREA TEST 2:5020/100\n")
        self.assertIn("good readonly TEST 2:5020/200", self.say("doctor")[1])
        self.put("net/a", b"SYSTEM 2:5020/200\nAREA TEST 2:5020/100 2:5020/9\n")
        begin = "BAD  readonly TEST 2:5020/200: it has 2:5020/9 there too"
        self.assertTrue(any(line.startswith(begin) for line in self.say("doctor")[1]))

    def test_a_point(self):
        self.put("inbound/1.pkt", header(by=(2, 5020, 100, 7), plus=True) + echomail(1) + build.END)
        self.assertIn("put aside 1.readonly.pkt: gate: 1 messages of readonly TEST from 2:5020/100.7", self.say("toss")[1])


class Hold(Hub):
    """Links that are not called."""

    peers = PEERS.replace("/200 PASS", "/200 HOLD")

    def test_lines_move(self):
        self.put("packets/old.pkt", b"x")
        self.put("outbound/139c00c8.flo", ("^%s\n~/sent\n" % self.at("packets", "old.pkt")).encode())
        self.put("outbound/139c00c8.hlo", b"^/before.pkt")
        self.assertEqual(self.say("scan")[0], 0)
        lines = ["^/before.pkt", "^" + self.at("packets", "old.pkt"), ""]
        self.assertEqual((self.names("outbound"), self.content("outbound", "139c00c8.hlo").decode().split("\n")), (["139c00c8.hlo"], lines))
        self.come(echomail(1), by=(2, 5020, 1, 0))
        self.say("scan")
        self.assertEqual(self.names("outbound"), ["139c0064.pnt", "139c00c8.hlo"])
        self.assertEqual(self.content("outbound", "139c00c8.hlo").decode().split("\n")[:2], lines[:2])

    def test_a_session_is_not_disturbed(self):
        self.put("outbound/139c00c8.flo", b"^/a.pkt\n")
        self.put("outbound/139c00c8.bsy", b"%d\n" % os.getpid())
        self.say("scan")
        self.assertEqual(self.names("outbound"), ["139c00c8.bsy", "139c00c8.flo"])


class Rescanned(Hub):
    """What a rescan brings is filed, and goes no further."""

    def rescanned(self, number: int, kludge: bytes = b"\x01RESCANNED 2:5020/1") -> bytes:
        """A message of a rescan."""
        return echomail(number).replace(b"\r\x01MSGID", b"\r" + kludge + b"\r\x01MSGID")

    def test_it_is_sent_to_nobody(self):
        self.assertEqual(self.come(self.rescanned(1), echomail(2), self.rescanned(3, b"\x01RESCANNED"), self.rescanned(4, b"\x01RESCANNED: x"), by=(2, 5020, 1, 0))[0], 0)
        self.come(self.rescanned(5, b"\x01RESCANNEDX"), self.rescanned(6, b"RESCANNED"), by=(2, 5020, 1, 0))
        self.say("scan")
        self.assertEqual(build.ids_in(self.sent("139c00c8.flo")), [2, 5, 6])
        self.assertIn("area TEST messages 6", "\n".join(self.say("status")[1]))

    def test_pass(self):
        self.put("settings", b"RESCANNED=pass\n")
        self.come(self.rescanned(1), by=(2, 5020, 1, 0))
        self.say("scan")
        self.assertEqual(build.ids_in(self.sent("139c00c8.flo")), [1])

    def test_where_the_line_stands(self):
        places = {(5020, 200), (5020, 1), (5030, 7)}
        tail = b"AREA:T\rx\r--- y\r * Origin: z (2:5020/1)\rSEEN-BY: 5020/1\r"
        line = b"SEEN-BY: 5020/1 200 5030/7\r"
        self.assertEqual(seen_by_all(tail + b"\x01PATH: 5020/1\r", places), tail + line + b"\x01PATH: 5020/1\r")
        self.assertEqual(seen_by_all(tail, places), tail + line)
        self.assertEqual(seen_by_all(tail[:-1], places), tail + line)
        self.assertEqual(seen_by_all(b"AREA:T\r\x01PATH: 1/1\rtext\r", places), b"AREA:T\r\x01PATH: 1/1\rtext\r" + line)
        many = seen_by_all(tail, {(5020, node) for node in range(1, 400)})
        self.assertTrue(all(len(it) <= 80 for it in many.split(b"\r")))
        self.assertTrue(is_rescanned(b"AREA:T\r\n\x01RESCANNED\rx") and is_rescanned(b"\x01RESCANNED:") and not is_rescanned(b"x\x01RESCANNED \r"))


class Via(unittest.TestCase):
    """The own line Via."""

    def test_letters_of_either_case(self):
        own = Address(2, 5020, 100)
        self.assertTrue(passed_by(b"x\r\x01VIA 2:5020/100\r", own) and passed_by(b"\n\x01Via: 2:5020/100@a", own))
        self.assertFalse(passed_by(b"Via 2:5020/100\r\x01Via2:5020/100\r", own))


if __name__ == "__main__":
    unittest.main()
