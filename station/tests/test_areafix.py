"""Letters to AreaFix: what they do, and what they are told."""
import os
import random
import unittest

import build
from build import echomail, header, message
from echonet_station import areafix, link_file
from echonet_station.calls import Called
from echonet_station.station import Station
from test_hand import Handwork
from test_stops import Stopping

PEERS = (
    "PEER 2:5020/1 PASSWORD secret\nPEER 2:5020/200 PASSWORD two AREAFIX Magic! GROUPS AB\nPEER 2:5020/201 PASSWORD one\n"
    "ROUTE 2:5020/1\nPOINT 2:31000/7 2:5020/100.7 PASSWORD seven AREAFIX points GROUPS A\n"
)
LINKS = "SYSTEM 2:5020/100\nAREA TEST 2:5020/1\nAREA NEWS 2:5020/1 2:5020/200\nAREA HIDDEN 2:5020/1\nAREA PRIVATE 2:5020/1\n"
AREAS = b"TEST A for trials\nNEWS B\nHIDDEN C no\nGONE A not here\n"
DOWN = (2, 5020, 200, 0)
PASSWORDS = {200: b"two", 201: b"one", 1: b"secret"}


def request(body: bytes, **fields) -> bytes:
    """A letter to AreaFix of a node, as a message of a packet."""
    node, point = fields.get("node", 200), fields.get("point", 0)
    lines = b"\x01INTL 2:5020/%d 2:5020/%d\r" % (fields.get("to_node", 100), node)
    lines += b"\x01FMPT %d\r" % point if point else b""
    lines += b"\x01MSGID: 2:5020/%d %08x\r" % (node, fields.get("number", 1))
    names = {"to": fields.get("to", b"AreaFix"), "by": fields.get("by", b"Bob"), "subject": fields.get("subject", b"mAGIC! -q")}
    return message(lines + body, nodes=(node, fields.get("to_node", 100)), attributes=1, **names)


class Robot(Handwork):
    """A hub with two downlinks and a point."""

    peers, links = PEERS, LINKS

    def setUp(self) -> None:
        super().setUp()
        self.put("areas", AREAS)
        self.number = 0

    def come(self, *messages: bytes, by=DOWN, password=None) -> tuple[int, list[str]]:
        """A packet that is tossed."""
        self.number += 1
        word = PASSWORDS.get(by[2], b"") if password is None else password
        self.put("inbound/%d.pkt" % self.number, header(by=by, password=word, plus=bool(by[3])) + b"".join(messages) + build.END)
        return self.say("toss")

    def answers(self) -> list[str]:
        """The texts of the answers, in order, without kludges. They go."""
        found = []
        for name in sorted(self.names("netmail"), key=lambda name: int(name.split(".")[0])):
            text = self.content("netmail", name)[190:].rstrip(b"\0").decode()
            found.append("\n".join(line for line in text.split("\r") if line and not line.startswith("\x01")))
            os.unlink(self.at("netmail", name))
        return found

    def ask(self, *lines: str, **fields) -> str:
        """The answer to a letter."""
        self.number += 1
        status, _ = self.come(request("\r".join(lines).encode(), number=self.number, **fields))
        self.assertEqual(status, 0)
        answers = self.answers()
        self.assertEqual(len(answers), 1)
        return answers[0]


class Lines(Robot):
    """The table of lines."""

    def test_all_lines(self):
        lines = ["+test", "TEST", " NEWS ", "+HIDDEN", "+GONE", "+PRIVATE", "+NONE", "", "-news", "-NEWS", "-NONE", "two words", "%FOO", "+", "x" * 61]
        self.put("links", LINKS.replace("SYSTEM", "; a comment\r\nSYSTEM").encode())
        wanted = [
            "> +test\nTEST: linked", "> TEST\nTEST: you have it", "> NEWS\nNEWS: you have it", "> +HIDDEN\nHIDDEN: no such area",
            "> +GONE\nGONE: no such area", "> +PRIVATE\nPRIVATE: no such area", "> +NONE\nNONE: no such area", "> -news\nNEWS: removed",
            "> -NEWS\nNEWS: you do not have it", "> -NONE\nNONE: you do not have it", "> two words\nunknown: two words", "> %FOO\nunknown: %FOO",
            "> +\nunknown: +", "> %s\nunknown: %s" % ("x" * 60, "x" * 60),
        ]
        self.assertEqual(self.ask(*lines).split("\n"), "\n".join(wanted).split("\n"))
        links = LINKS.replace("SYSTEM", "; a comment\r\nSYSTEM").replace(" 2:5020/200", "").replace("TEST 2:5020/1", "TEST 2:5020/1 2:5020/200")
        self.assertEqual(self.content("links").decode(), links)
        self.assertIn(b" areafix 2:5020/200 2 changes\n", self.content("log"))

    def test_lists(self):
        self.assertEqual(self.ask("%list"), "> %list\n* NEWS\n  TEST  for trials")
        self.assertEqual(self.ask("%QUERY", "%UNLINKED"), "> %QUERY\n* NEWS\n> %UNLINKED\n  TEST  for trials")
        self.put("links", b"SYSTEM 2:5020/100\n")
        self.assertEqual(self.ask("%LIST"), "> %LIST")
        self.assertIn("%RESCAN", self.ask("%HELP"))

    def test_only_lines_before_the_tear_line(self):
        self.assertEqual(self.ask("\x01PID: x", "%QUERY", "---", "+TEST"), "> %QUERY\n* NEWS")
        self.assertEqual(self.ask("%QUERY", "--- GoldED", "+TEST"), "> %QUERY\n* NEWS")

    def test_200_lines_count(self):
        answer = self.ask(*["-NONE"] * 199, "", "+TEST", "-NEWS")
        self.assertEqual((answer.count("\n> ") + 1, answer.split("\n")[-1]), (200, "TEST: linked"))
        self.assertIn(b"NEWS 2:5020/1 2:5020/200", self.content("links"))

    def test_a_loop_is_refused(self):
        for number, text in enumerate(("1\nAREA TEST 2:5020/100 2:5020/5", "5\nAREA TEST 2:5020/1 2:5020/200", "200\nAREA TEST 2:5020/5")):
            self.put("net/%d" % number, ("SYSTEM 2:5020/%s\n" % text).encode())
        self.assertEqual(self.ask("+TEST"), "> +TEST\nTEST: refused: you get it already by 2:5020/5")
        self.assertEqual(self.content("links"), LINKS.encode())
        self.put("net/6", b"SYSTEM 1:5020/200\nAREA TEST 2:5020/100\n")
        self.put("links", LINKS.replace("AREA TEST", "AREA TEST 1:5020/200").encode())
        os.unlink(self.at("net", "2"))
        os.unlink(self.at("net", "1"))
        self.assertEqual(self.ask("+TEST"), "> +TEST\nTEST: refused: V6 SameNetNode 1:5020/200 2:5020/200")

    def test_a_loop_elsewhere_in_the_block(self):
        """The link is told by whom it gets the area, also if the loop that is named goes past it."""
        ring = (1, 2, 3, 4)
        for place, node in enumerate(ring):
            links = {ring[place - 1], ring[(place + 1) % 4]} | ({100} if node == 2 else set()) | ({200} if node == 4 else set())
            self.put("net/%d" % node, ("SYSTEM 2:5020/%d\nAREA TEST %s\n" % (node, " ".join("2:5020/%d" % it for it in sorted(links)))).encode())
        self.put("net/200", b"SYSTEM 2:5020/200\nAREA TEST 2:5020/4\n")
        self.put("links", LINKS.replace("TEST 2:5020/1", "TEST 2:5020/2").encode())
        self.assertEqual(self.ask("+TEST"), "> +TEST\nTEST: refused: you get it already by 2:5020/4")

    def test_rescan(self):
        self.come(*(echomail(number, tag=b"NEWS") for number in (1, 2, 3)), by=(2, 5020, 1, 0))
        self.say("scan")
        answer = self.ask("%rescan news 2", "%RESCAN NEWS", "%RESCAN TEST", "%RESCAN", "%RESCAN NEWS x")
        wanted = "> %rescan news 2\nNEWS: 2 messages\n> %RESCAN NEWS\nNEWS: once a day\n> %RESCAN TEST\nTEST: you do not have it\n"
        wanted += "> %RESCAN\nunknown: %RESCAN\n> %RESCAN NEWS x\nunknown: %RESCAN NEWS x"
        self.assertEqual(answer, wanted)
        self.say("scan")
        flow = self.content("outbound", "139c00c8.flo").decode().split("\n")[:-1]
        self.assertEqual(sorted(it for path in flow for it in build.ids_in(build.content(path[1:]))), [1, 2, 2, 3, 3])

    def test_pause(self):
        self.assertEqual(self.ask("%PAUSE"), "> %PAUSE\nunsubscribed 2:5020/200 NEWS\npaused 2:5020/200: 1 areas")
        self.come(echomail(1, tag=b"NEWS"), by=(2, 5020, 1, 0))
        self.say("scan")
        self.assertEqual(self.ask("%RESUME", "%RESUME").split("\n")[-3:], ["resumed 2:5020/200: 1 areas, 1 messages", "> %RESUME", "not paused 2:5020/200"])
        self.say("scan")
        self.assertEqual(len(self.content("outbound", "139c00c8.flo").split()), 1)

    def test_the_answer_is_sent_by_the_next_scan(self):
        self.come(request(b"%QUERY\r"))
        stored = self.content("netmail", "2.msg")
        self.assertEqual([stored[start:end].rstrip(b"\0") for start, end in ((0, 36), (36, 72), (72, 144))], [b"AreaFix", b"Bob", b"Re: your request"])
        self.assertIn(b"\x01REPLY: 2:5020/200 00000001\r", stored)
        self.assertEqual(self.say("scan")[0], 0)
        self.assertEqual(self.names("netmail"), [])
        sent = build.content(self.content("outbound", "139c00c8.flo").decode().split("\n")[0][1:])
        self.assertIn(b"> %QUERY\r* NEWS\r", sent)


class Senders(Robot):
    """Who is accepted."""

    def test_not_accepted(self):
        """A wrong word, an unknown system and a forged sender are told the same, once a day."""
        for fields, by in (
            ({"subject": b"wrong"}, DOWN),
            ({"node": 201, "subject": b"Magic!"}, (2, 5020, 201, 0)),
            ({"node": 300}, (2, 5020, 1, 0)),
            ({"node": 200, "number": 2}, (2, 5020, 201, 0)),
            ({"node": 300, "subject": b"", "number": 3}, (2, 5020, 1, 0)),
        ):
            os.path.exists(self.at("areafix.refused")) and os.unlink(self.at("areafix.refused"))
            status, lines = self.come(request(b"+TEST\r%HELP\r", **fields), by=by)
            self.assertEqual((status, [line for line in lines if "letter" in line]), (0, []), fields)
            self.assertEqual(self.answers(), ["not accepted"], fields)
            self.come(request(b"-NEWS\r", **{**fields, "number": 77}), by=by)
            self.assertEqual(self.answers(), [], fields)
        self.assertEqual(self.content("links"), LINKS.encode())
        self.assertEqual(self.content("log").count(b" not accepted\n"), 10)
        self.assertEqual(self.names("areafix"), [])

    def test_twenty_answers_a_day(self):
        letters = [request(b"x\r", node=300 + number, number=number) for number in range(30)]
        self.come(*letters, by=(2, 5020, 1, 0))
        self.assertEqual(self.answers(), ["not accepted"] * 20)

    def test_points(self):
        point = (2, 5020, 100, 7)
        self.come(request(b"+TEST\r+NEWS\r", node=100, point=7, subject=b"points"), by=point, password=b"seven")
        self.assertEqual(self.answers(), ["> +TEST\nTEST: linked\n> +NEWS\nNEWS: no such area"])
        self.assertIn(b"AREA TEST 2:5020/1 2:31000/7\n", self.content("links"))
        self.come(request(b"-NEWS\r", point=5))
        self.assertEqual(self.answers(), ["> -NEWS\nNEWS: removed"])
        # Nobody else has packets from here: this one is forged.
        self.come(request(b"-TEST\r", node=100, point=7, subject=b"points"), by=(2, 5020, 100, 0))
        self.assertEqual(self.answers(), ["not accepted"])
        self.assertIn(b"AREA TEST 2:5020/1 2:31000/7\n", self.content("links"))

    def test_robots_are_not_answered(self):
        for name in (b"AreaFix", b"AREA_MANAGER", b"areamgr", b"HPT", b"sbbsecho"):
            self.come(request(b"-NEWS\r", by=name, number=len(name)))
            self.assertEqual(self.answers(), [])
            self.assertNotIn(b"NEWS 2:5020/1 2:5020/200", self.content("links"))
            self.come(request(b"+NEWS\r", to=name.upper(), number=10 + len(name)))
            self.assertEqual(len(self.answers()), 1, name)

    def test_two_hubs_do_not_write_for_ever(self):
        """The answer of another hub's AreaFix comes as a letter to the asker, or to ours: neither is answered."""
        self.come(request(b"> +TEST\rnot accepted\r", by=b"AreaFix", to=b"AreaFix", subject=b"Re: your request"))
        self.assertEqual((self.answers(), self.names("areafix")), ([], []))

    def test_no_way_to_answer(self):
        """An answer without a way, or to the own address, would stay for ever."""
        self.put("peers", PEERS.replace("ROUTE 2:5020/1\n", "").encode())
        self.come(request(b"x\r", node=300), by=(2, 5020, 1, 0))
        self.come(request(b"x\r", node=100), by=(2, 5020, 1, 0))
        self.put("peers", PEERS.encode())
        self.come(request(b"x\r", node=100, point=9), by=(2, 5020, 1, 0))
        self.assertEqual((self.answers(), self.say("scan")[0]), ([], 0))

    def test_a_faulty_link_file(self):
        """A letter waits, and the station goes on."""
        self.put("links", (LINKS + "AREA BAD 2:5020/1 2:5020/1\n").encode())
        self.assertEqual(self.come(request(b"+TEST\r"))[0], 0)
        self.assertEqual((self.answers(), len(self.names("areafix"))), ([], 1))
        self.put("links", LINKS.encode())
        self.say("toss")
        self.assertEqual(self.answers(), ["> +TEST\nTEST: linked"])

    def test_without_areafix_it_is_a_letter(self):
        self.put("peers", b"PEER 2:5020/200 PASSWORD two\n")
        self.come(request(b"%LIST\r"))
        self.assertEqual(self.names("netmail"), ["2.msg"])


class Care(Robot):
    """Odd letters."""

    def test_the_same_letter_often(self):
        for _ in range(3):
            self.come(*[request(b"+TEST\r")] * 20)
        self.assertEqual(self.answers(), ["> +TEST\nTEST: linked"])
        self.assertEqual(self.content("log").count(b" areafix 2:5020/200 1 changes\n"), 1)

    def test_bytes_that_are_no_text(self):
        chance = random.Random(5)
        for number in range(15):
            noise = bytes(chance.choice(b"\x01\x02\x1b[31m+-% \r\n\x80\xff\xd0\x9fTEST") for _ in range(400)).replace(b"---", b"")
            status, _ = self.come(request(noise, number=number))
            self.assertEqual(status, 0)
            for answer in self.answers():
                self.assertTrue(all(letter == "\n" or letter.isprintable() for letter in answer), ascii(answer))
        self.assertEqual(self.names("areafix"), [])
        self.assertEqual(self.say("status")[0], 0)

    def test_a_large_letter(self):
        self.come(request(b"+TEST\r" * 220000))
        self.assertEqual(self.answers()[0].count("\n> ") + 1, 200)

    def test_a_faulty_file_of_areas(self):
        self.put("areas", b"TEST\n")
        self.assertEqual(self.come(request(b"+TEST\r"), echomail(1, tag=b"NEWS"))[0], 0)
        self.assertEqual((self.answers(), len(self.names("areafix"))), ([], 1))
        status, lines = self.say("status")
        self.assertEqual((status, lines[-1]), (1, "hand areas:1: K2 BadWord"))
        self.put("areas", AREAS)
        self.say("toss")
        self.assertEqual(self.answers(), ["> +TEST\nTEST: linked"])


class Stopped(Stopping):
    """A letter that is stopped at each change of a file."""

    peers, links = PEERS, LINKS
    cuts = 2

    def setUp(self) -> None:
        super().setUp()
        self.put("areas", AREAS)
        before = link_file.call
        link_file.call = lambda *_, **__: Called(0, "", "")
        self.addCleanup(setattr, link_file, "call", before)
        for number in (1, 2):
            self.put("inbound/%d.pkt" % number, header(by=DOWN, password=b"two") + request(b"+TEST\r-NEWS\r") + build.END)

    def run_once(self, disk=None) -> None:
        self.gate(disk)
        station = Station(self.top, disk)
        try:
            areafix.work_off_requests(station)
        finally:
            station.unlock()

    def look(self, where: str) -> None:
        links = LINKS.replace(" 2:5020/200", "").replace("TEST 2:5020/1", "TEST 2:5020/1 2:5020/200")
        self.assertEqual(self.content("links").decode(), links, where)
        self.assertLessEqual(len(self.names("netmail")), 1, where)
        self.assertEqual((self.names("areafix"), self.names("inbound"), self.names("bad")), ([], [], []), where)

    def test_each_place(self):
        self.assertGreater(self.stop_everywhere(), 25)
        self.assertEqual(len(self.names("netmail")), 1)


if __name__ == "__main__":
    unittest.main()
