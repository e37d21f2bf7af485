"""What a scan's packets get before they are handed over, and the letters that are sent."""
import os
import re
import struct
import unittest

import build
from build import END, OWN, echomail, header, stored

UP = (2, 5020, 1, 0)
VIA = re.compile(rb"\x01Via 2:5020/100 @[0-9]{8}\.[0-9]{6}\.UTC echonet\r")


class Dress(build.StationCase):
    """Passwords, type 2+ and points."""

    peers = build.PEERS + "PEER 2:5020/2 PASSWORD Mixed\nPEER 2:5020/3 PLUS\nPEER 1:10/1 PASSWORD abcdefgh PLUS\n"
    body = echomail(1) + END

    def dressed(self, to, content: bytes) -> bytes:
        """A packet of a scan after `dress`, twice."""
        name = "scanned/%d.%d.%d.0.pkt" % to[:3]
        self.put(name, content)
        for _ in range(2):
            self.assertEqual(self.outgoing(), (0, []))
        return self.content(name)

    def scanned(self, to) -> bytes:
        """A packet as a scan writes it."""
        return header(OWN, to) + self.body

    def test_nothing(self):
        to = (2, 5020, 4, 0)
        self.assertEqual(self.dressed(to, self.scanned(to)), self.scanned(to))

    def test_password(self):
        to = (2, 5020, 2, 0)
        self.assertEqual(self.dressed(to, self.scanned(to)), header(OWN, to, password=b"Mixed") + self.body)

    def test_plus(self):
        to = (2, 5020, 3, 0)
        got = self.dressed(to, self.scanned(to))
        self.assertEqual(got, self.product(header(OWN, to, plus=True)) + self.body)
        self.assertEqual((got[24], got[40:42], got[44:46]), (0xFE, b"\0\1", b"\1\0"))

    def test_both(self):
        to = (1, 10, 1, 0)
        wanted = self.product(header(OWN, to, plus=True, password=b"abcdefgh")) + self.body
        self.assertEqual(self.dressed(to, self.scanned(to)), wanted)

    def test_point(self):
        fake = (2, 31000, 7, 0)
        wanted = self.product(header(OWN, (2, 5020, 100, 7), plus=True)) + self.body
        self.assertEqual(self.dressed(fake, self.scanned(fake)), wanted)

    def test_own_point(self):
        self.put("links", b"SYSTEM 2:31000/7\nAREA TEST 2:5020/100\n")
        self.put("peers", b"PEER 2:5020/100 PASSWORD p\nPOINT 2:31000/7 2:5020/100.7\n")
        boss = (2, 5020, 100, 0)
        got = self.dressed(boss, header((2, 31000, 7, 0), boss) + self.body)
        self.assertEqual(got, self.product(header((2, 5020, 100, 7), boss, plus=True, password=b"p")) + self.body)

    def test_short(self):
        self.assertEqual(self.dressed(UP, b"short"), b"short")

    def test_other_names(self):
        self.put("scanned/other.pkt", self.scanned(UP))
        self.put("scanned/2.5020.1.0.pkt.new", self.scanned(UP))
        self.outgoing()
        for name in ("other.pkt", "2.5020.1.0.pkt.new"):
            self.assertEqual(self.content("scanned", name), self.scanned(UP))

    def test_points_leave_seen_by(self):
        to = (2, 5020, 4, 0)
        content = header(OWN, to) + echomail(1, seen=b"5020/1 100 31000/7 8") + self.body
        self.put("scanned/2.5020.4.0.pkt", content)
        os.link(self.at("scanned", "2.5020.4.0.pkt"), self.at("scanned", "2.5020.4.0.pkt.~2.5020.100~.new"))
        self.outgoing()
        self.assertEqual(self.names("scanned"), ["2.5020.4.0.pkt"])
        wanted = header(OWN, to) + echomail(1, seen=b"5020/1 100 31000/8") + self.body
        self.assertEqual(self.content("scanned", "2.5020.4.0.pkt"), wanted)

    def test_points_stay_for_points(self):
        fake = (2, 31000, 7, 0)
        content = header(OWN, fake) + echomail(1, seen=b"5020/1 100 31000/7 8") + END
        self.assertEqual(self.dressed(fake, content)[58:], content[58:])

    @staticmethod
    def product(head: bytes) -> bytes:
        """The product code of a dressed header."""
        return head[:24] + b"\xfe" + head[25:]


class Flow(build.StationCase):
    """Flow files of links."""

    def test_places(self):
        for words, path in (("2 5020 1", "outbound/139c0001"), ("1 10 2", "outbound.001/000a0002"), ("2 31000 7", "outbound/139c0064.pnt/00000007")):
            ran = self.run_tool("flow", *words.split())
            self.assertEqual((ran.returncode, ran.stdout.decode()), (0, self.at(path) + "\n"))

    def test_no_address(self):
        self.assertEqual(self.run_tool("flow", "x", "1", "2").returncode, 4)

    def test_settings(self):
        self.put("settings", b"# a comment\nOUTBOUND=/elsewhere/out\nINBOUND='in b'\n")
        self.assertEqual(self.run_tool("flow", "2", "5020", "1").stdout, b"/elsewhere/out/139c0001\n")

    def test_settings_of_the_shell(self):
        self.put("settings", b'top=/else\nif true; then OUTBOUND="$top/o"; fi\n')
        self.assertEqual(self.run_tool("flow", "2", "5020", "1").stdout, b"/else/o/139c0001\n")


class Sent(build.StationCase):
    """Letters that are packed."""

    def packets(self) -> dict[str, bytes]:
        """The packets in scanned/, by their links."""
        return {".".join(name.split(".")[:3]): self.content("scanned", name) for name in self.names("scanned")}

    def attributes(self, name: str) -> int:
        """The attributes of a letter."""
        return struct.unpack_from("<H", self.content("netmail", name), 186)[0]

    def text_in(self, content: bytes) -> bytes:
        """The text of the only message."""
        return content[58 + 34 :].split(b"\0", 4)[3]

    def test_way_and_lines(self):
        self.put("netmail/2.msg", stored(b"hello\r"))
        status, lines = self.outgoing()
        self.assertEqual((status, len(lines)), (0, 1))
        self.assertRegex(lines[0], r"^letters in 2\.5020\.1\.m[0-9]+\.pkt$")
        got = self.packets()["2.5020.1"]
        self.assertEqual(got[20:24] + got[34:38], struct.pack("<4H", 5020, 5020, 2, 2))
        self.assertEqual((got[26:32], got[-2:]), (b"secret", END))
        text = self.text_in(got)
        self.assertTrue(VIA.search(text))
        self.assertEqual(VIA.sub(b"", text), b"\1INTL 2:5020/55 2:5020/100\rhello\r")
        fields = struct.pack("<7H", 2, 100, 55, 5020, 5020, 1, 0) + build.DATE + b"You\0Me\0Subject\0"
        self.assertEqual(got[58 : 58 + len(fields)], fields)
        self.assertEqual(self.attributes("2.msg"), 0x109)
        self.assertEqual(self.outgoing(), (0, []))
        self.assertEqual(list(self.packets().values()), [got])

    def test_lines_that_are_there(self):
        text = b"\1INTL 2:5020/9 2:5020/100\r\1TOPT 4\r\1FMPT 3\rhello\r"
        self.put("netmail/2.msg", stored(text))
        self.outgoing()
        self.assertEqual(VIA.sub(b"", self.text_in(self.packets()["2.5020.1"])), text)

    def test_points(self):
        self.put("netmail/2.msg", stored(b"hello", to=(2, 5020, 100, 7)))
        self.put("netmail/3.msg", stored(b"hello\r", to=(2, 5020, 9, 3), by=(2, 5020, 100, 7), attributes=0x21))
        self.outgoing()
        packets = self.packets()
        self.assertEqual(sorted(packets), ["2.31000.7", "2.5020.1"])
        to_point, of_point = packets["2.31000.7"], packets["2.5020.1"]
        self.assertEqual(VIA.sub(b"", self.text_in(to_point)), b"\1INTL 2:5020/100 2:5020/100\r\1TOPT 7\rhello\r")
        self.assertEqual(VIA.sub(b"", self.text_in(of_point)), b"\1INTL 2:5020/9 2:5020/100\r\1TOPT 3\r\1FMPT 7\rhello\r")

    def test_peers_come_first(self):
        self.put("peers", (build.PEERS + "PEER 2:5020/55\n").encode())
        self.put("netmail/2.msg", stored(b"hello\r"))
        self.outgoing()
        self.assertEqual(list(self.packets()), ["2.5020.55"])

    def test_several_in_one_packet(self):
        for number in (10, 9, 8):
            self.put("netmail/%d.MSG" % number, stored(b"letter %d\r" % number))
        self.outgoing()
        content = self.packets()["2.5020.1"]
        self.assertEqual(re.findall(rb"letter [0-9]+", content), [b"letter 8", b"letter 9", b"letter 10"])

    def test_those_that_stay(self):
        self.put("netmail/2.msg", stored(b"sent\r", attributes=0x109))
        self.put("netmail/3.msg", stored(b"received\r", attributes=1))
        self.put("netmail/4.msg", stored(b"young\r"), age=0.5)
        self.put("netmail/5.msg", stored(b"half")[:-1])
        self.put("netmail/6.msg", b"short")
        self.put("netmail/7.msg", stored(b"to me\r", to=OWN))
        self.put("netmail/8.txt", stored(b"no name\r"))
        os.mkdir(self.at("netmail", "9.msg"))
        self.assertEqual(self.outgoing(), (0, []))
        self.assertEqual(self.packets(), {})
        os.utime(self.at("netmail", "4.msg"), (0, 0))
        self.outgoing()
        self.assertEqual(list(self.packets()), ["2.5020.1"])

    def test_files_and_requests(self):
        for number, attribute in ((2, 0x10), (3, 0x800)):
            self.put("netmail/%d.msg" % number, stored(b"x\r", attributes=0x101 | attribute))
        wanted = ["keeps %d.msg: files and requests are not sent" % number for number in (2, 3)]
        self.assertEqual(self.outgoing(), (1, wanted))

    def test_no_route(self):
        self.put("peers", b"PEER 2:5020/1\n")
        self.put("netmail/2.msg", stored(b"x\r"))
        self.assertEqual(self.outgoing(), (1, ["keeps 2.msg for 2:5020/55: peers has no ROUTE"]))
        self.assertEqual(self.attributes("2.msg"), 0x101)

    def test_too_large(self):
        self.put("netmail/2.msg", stored(b"x" * (1 << 20)))
        self.assertEqual(self.outgoing(), (1, ["keeps 2.msg: over 1048576 bytes"]))


if __name__ == "__main__":
    unittest.main()
