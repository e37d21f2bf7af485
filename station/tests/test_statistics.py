"""stats, status --json and --page, and a loop that is seen in the mail."""
import gzip
import html.parser
import json
import os
import time
import unittest

import build
from build import echomail, header
from test_hand import Handwork
from test_letters import LINKS, PEERS

NOW = time.time()


def stamp(days: float) -> str:
    """A time some days ago, as the log has it."""
    return time.strftime("%Y-%m-%dT%H:%M:%SZ", time.gmtime(NOW - days * 86400))


class Counted(Handwork):
    """A hub with mail."""

    peers, links = PEERS, LINKS

    def come(self, *messages: bytes, node: int = 1, name: str = "1.pkt") -> None:
        """A packet that is tossed."""
        password = b"secret" if node == 1 else b""
        self.put("inbound/" + name, header(by=(2, 5020, node, 0), password=password) + b"".join(messages) + build.END)
        self.say("toss")

    def rows(self, *words: str) -> dict[str, dict[str, int]]:
        """The lines of stats, by their first two words."""
        status, lines = self.say("stats", *words)
        self.assertEqual(status, 0, lines)
        found = {}
        for line in lines:
            kind, name, *rest = line.split(" ")
            found["%s %s" % (kind, name)] = dict(zip(rest[::2], map(int, rest[1::2])))
        self.assertEqual(len(found), len(lines))
        return found


class Stats(Counted):
    """The counts."""

    def test_sums(self):
        self.come(echomail(1), echomail(2), echomail(3, tag=b"NEWS"))
        self.come(echomail(1), echomail(4), echomail(5, tag=b"NONE"), name="a from x filed 900 known 900 notecho x.pkt")
        self.come(echomail(6), node=200)
        self.come(echomail(7), node=201, name="2.pkt")
        self.say("scan")
        self.come(echomail(8))
        rows = self.rows()
        self.assertEqual(rows["area TEST"], {"filed": 5, "known": 1, "sent": 3 * 2 + 1})
        self.assertEqual(rows["area NEWS"], {"filed": 1, "known": 0, "sent": 1})
        self.assertEqual({key: rows["link 2:5020/1"][key] for key in ("came", "known", "aside", "sent")}, {"came": 6, "known": 1, "aside": 1, "sent": 0})
        self.assertEqual((rows["link 2:5020/200"]["came"], rows["link 2:5020/200"]["sent"]), (1, 4))
        self.assertEqual(rows["link 2:5020/201"]["aside"], 1)
        self.assertNotIn("link 2:5020/9", rows)
        today = time.strftime("%Y-%m-%d", time.gmtime())
        self.assertEqual(rows["day " + today], {"filed": 6, "sent": 8})
        listed = [line for line in self.say("status")[1] if line.startswith("area ")]
        growth = sum(int(line.split(" ")[3]) for line in listed)
        self.assertEqual(sum(row["filed"] for name, row in rows.items() if name.startswith("area ")), growth)
        self.assertEqual(sum(row["sent"] for name, row in rows.items() if name.startswith("link ")), 8)
        order = [line.split(" ")[:2] for line in self.say("stats")[1]]
        self.assertEqual([it[0] for it in order], sorted((it[0] for it in order), key=["area", "link", "day"].index))
        self.assertEqual([it[1] for it in order if it[0] == "area"], ["NEWS", "TEST"])
        whole = json.loads(self.say("stats", "--json")[1][0])
        self.assertEqual(whole["area"][1], {"area": "TEST", **rows["area TEST"]})
        self.assertEqual([it["link"] for it in whole["link"]], [it[1] for it in order if it[0] == "link"])

    def test_parts_of_the_log(self):
        line = "%s came x.pkt from 2:5020/1 filed %d known 0 notecho 0 badtag 0 noarea 0 notlinked 0\n"
        self.put("log", (line % (stamp(1), 1) + line % (stamp(0), 2)).encode())
        self.put("log.1", (line % (stamp(20), 4) + line % (stamp(9), 8)).encode())
        self.put("log.2.gz", gzip.compress((line % (stamp(50), 16) + line % (stamp(29), 32)).encode()))
        self.put("log.3.gz", b"damaged")
        self.put("log.old", (line % (stamp(1), 64)).encode())
        for days, came in ((30, 47), (10, 11), (2, 3), (100, 63)):
            self.assertEqual(self.rows("--days", str(days))["link 2:5020/1"]["came"], came, days)
        self.assertEqual(len([name for name in self.rows("--days", "100") if name.startswith("day")]), 6)
        self.assertEqual(self.say("stats", "--days", "x")[0], 4)

    def test_a_long_log_is_read_from_its_end(self):
        """A clock was wrong for some lines."""
        line = "%s came x.pkt from 2:5020/1 filed %d known 0 notecho 0 badtag 0 noarea 0 notlinked 0\n"
        old = "".join(line % (stamp(21 + number / 1000), 100) for number in range(15000, 0, -1))
        before, after = (("".join(line % (stamp(day + number / 2000), 1) for number in range(6000, 0, -1))) for day in (10, 1))
        wrong = line % ("2000-01-01T00:00:00Z", 1000) * 4500  # less than a piece, and the second piece from the end begins in them
        self.put("log", (old + before + wrong + after).encode())
        self.put("log.1", (line % (stamp(2), 1)).encode())  # older than what was left out, whatever it says
        self.assertEqual(self.rows("--days", "20")["link 2:5020/1"]["came"], 12000)
        self.assertEqual(self.rows("--days", "5")["link 2:5020/1"]["came"], 6000)

    def test_arrivals_by_days(self):
        self.come(echomail(1), echomail(2))
        self.put("days", b"%d 1\n%d 2\n" % (NOW - 40 * 86400, NOW - 86400))
        self.assertEqual((self.rows()["area TEST"]["filed"], self.rows("--days", "50")["area TEST"]["filed"]), (1, 2))

    def test_a_year(self):
        line = "%s sent %08x.pkt to 2:5020/%d %d messages 1000 bytes\n"
        text = "".join(line % (stamp(365 * (1 - number / 200000)), number, number % 50 + 1, 3) for number in range(200000))
        self.put("log", text.encode())
        begin = time.process_time()
        begun = os.times()
        rows = self.rows("--days", "400")
        ended = os.times()
        self.assertEqual(sum(row["sent"] for name, row in rows.items() if name.startswith("link")), 600000)
        self.assertLess(ended.children_user - begun.children_user + time.process_time() - begin, 8)  # bench/station.py measures the limit, 2 s


class Reader(html.parser.HTMLParser):
    """Reads a page: its tags, and its texts."""

    def __init__(self) -> None:
        super().__init__()
        self.tags: list[str] = []
        self.texts: list[str] = []
        self.open: list[str] = []

    def handle_starttag(self, tag, attrs):
        self.tags.append(tag)
        if tag != "meta":
            self.open.append(tag)

    def handle_endtag(self, tag):
        assert self.open.pop() == tag, tag

    def handle_data(self, data):
        self.texts.append(data.strip())


class Page(Counted):
    """The object and the page."""

    def test_json(self):
        self.come(echomail(1), echomail(2, tag=b"NONE"))
        status, lines = self.say("status", "--json")
        found = json.loads("\n".join(lines))
        self.assertEqual((status, found["station"]["address"], found["hand"]), (1, "2:5020/100", ["bad: see bad/*.why, then retoss"]))
        self.assertEqual(found["areas"], [{"tag": "TEST", "messages": 1, "waiting": 1, "purged": 0}])
        self.assertEqual((found["bad"]["files"], found["bad"]["first"]), (1, "1.pkt"))
        self.assertEqual(found["new"][0]["tag"], "NONE")
        self.assertIsNone(found["scan"]["seconds"])
        self.say("scan")
        found = json.loads(self.say("status", "--json")[1][0])
        self.assertEqual([link["address"] for link in found["links"]], ["2:5020/100.7", "2:5020/200"])

    def page(self) -> Reader:
        """The page, as a reader has it."""
        self.say("status", "--page", self.at("page.html"))
        reader = Reader()
        reader.feed(self.content("page.html").decode())
        self.assertEqual(reader.open, [])
        return reader

    def test_what_strangers_wrote_is_escaped(self):
        evil = "<script>alert(1)</script>&\"'.pkt"
        self.put("links", LINKS.encode() + b"AREA <IMG/SRC=X> 2:5020/1\n")
        self.come(echomail(1, tag=b"<img/src=x>"), echomail(2, tag=b"<B>"), name="x.pkt")
        self.put("bad/" + evil.replace("/", "|"), b"x")
        self.put("bad/" + evil.replace("/", "|") + ".why", b"gate: <a href=//x>\x1b[31m\n")
        reader = self.page()
        self.assertFalse({"script", "img", "a", "b"} & set(reader.tags))
        self.assertIn("<IMG/SRC=X>", reader.texts)
        self.assertNotIn(b"\x1b", self.content("page.html"))
        self.assertNotRegex(self.content("page.html").decode().lower(), r"https?:|src=[\"']|<link|@import|url\(")

    def test_rows(self):
        self.come(echomail(1), echomail(2))
        self.say("scan")
        reader = self.page()
        for text in ("2:5020/1", "2:5020/200", "2:5020/100.7", "TEST", "NEWS"):
            self.assertIn(text, reader.texts)
        self.assertEqual(reader.tags.count("tr"), 1 + 3 + 1 + 2)
        self.assertNotIn("page.html.new", self.names())

    def test_a_large_hub(self):
        links = "".join("AREA A.%d %s\n" % (number, " ".join("2:5020/%d" % node for node in range(200, 250))) for number in range(300))
        self.put("links", b"SYSTEM 2:5020/100\n" + links.encode())
        line = "%s came %08x.pkt from 2:5020/%d filed 3 known 1 notecho 0 badtag 0 noarea 0 notlinked 0\n"
        self.put("log", "".join(line % (stamp(30 * (1 - number / 6000)), number, 200 + number % 50) for number in range(6000)).encode())
        begun = os.times()
        self.page()
        ended = os.times()
        self.assertLess(len(self.content("page.html")), 200000)
        self.assertLess(ended.children_user - begun.children_user, 1.0)


class Loops(Counted):
    """Known messages."""

    def known(self, *lines: str) -> list[str]:
        """What needs a hand with these lines of the log."""
        self.put("log", "".join(line + "\n" for line in lines).encode())
        return [line for line in self.say("status")[1] if line.startswith("hand known")]

    def test_a_loop(self):
        self.come(*(echomail(number) for number in range(1, 61)))
        many = "hand known: %d of %d messages of TEST from 2:5020/1 were known in 7 days: a loop, or a rescan (net-page)"
        self.assertEqual(self.known("%s known 20 TEST from 2:5020/1" % stamp(1)), [many % (20, 80)])
        self.assertEqual(self.known("%s known 19 TEST from 2:5020/1" % stamp(1)), [])
        self.assertEqual(self.known("%s known 15 TEST from 2:5020/1" % stamp(1), "%s known 15 TEST from 2:5020/1" % stamp(2)), [many % (30, 90)])
        self.assertEqual(self.known("%s known 20 TEST from 2:5020/1" % stamp(8)), [])
        self.come(echomail(99))
        self.assertEqual(self.known("%s known 20 TEST from 2:5020/1" % stamp(1)), [])
        self.assertEqual(self.say("status")[0], 0)


if __name__ == "__main__":
    unittest.main()
