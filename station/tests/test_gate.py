"""The gate on plain packets: who sent them, for whom they are, passwords, letters, repair, shared folders."""
import os
import struct
import unittest

import build
from build import END, OWN, UPLINK, echomail, header, ids_in, letter, message, packet

CLEAN = header()  # what goes on of any header of the uplink


class Senders(build.StationCase):
    """Headers of type 2, 2+ and FSC-0048."""

    peers = "PEER 2:5020/1\nPOINT 2:31000/7 2:5020/100.7\n"

    def head_of(self, head: bytes) -> bytes:
        """The header that goes on."""
        self.put("inbound/a.pkt", head + echomail(1) + END)
        status, lines = self.gate()
        self.assertEqual((status, lines), (0, []))
        return self.passed()["a.pkt"][:58]

    def test_plain(self):
        self.assertEqual(self.head_of(header()), CLEAN)

    def test_plus(self):
        self.assertEqual(self.head_of(header(plus=True, password=b"any")), CLEAN)

    def test_plus_zones_come_first(self):
        self.assertEqual(self.head_of(header(plus=True, zones=(7, 7))), CLEAN)

    def test_plus_zones_of_zero(self):
        self.assertEqual(self.head_of(header(plus=True, zones2=(0, 0))), CLEAN)

    def test_junk_behind_type_2(self):
        self.assertEqual(self.head_of(header(zones2=(7, 7), points=(5, 6), capabilities=1, swapped=1)), CLEAN)

    def test_capabilities_without_the_bit(self):
        self.assertEqual(self.head_of(header(points=(5, 6), capabilities=2, swapped=0x200)), CLEAN)

    def test_no_zones(self):
        self.assertEqual(self.head_of(header(zones=(0, 0))), header(zones=(0, 0)))

    def test_baud_stays(self):
        self.assertEqual(self.head_of(header(baud=19200)), header(baud=19200))

    def test_point_becomes_fake(self):
        got = self.head_of(header(by=(2, 5020, 100, 7), plus=True))
        self.assertEqual(got, header(by=(2, 31000, 7, 0)))

    def test_point_of_fsc_0048(self):
        got = self.head_of(header(by=(2, 5020, 100, 7), plus=True, net=65535, boss_net=5020))
        self.assertEqual(got, header(by=(2, 31000, 7, 0)))

    def test_net_65535_without_a_point(self):
        got = self.head_of(header(plus=True, net=65535, boss_net=5020))
        self.assertEqual(got, header(net=65535))


class Refused(build.StationCase):
    """Packets that are put aside whole."""

    def aside(self, content: bytes) -> str:
        """The reason for a packet, which lies in bad/ as it came."""
        self.put("inbound/a.pkt", content)
        status, lines = self.gate()
        self.assertEqual((status, self.passed(), self.names("inbound")), (1, {}, []))
        self.assertEqual(self.content("bad", "a.pkt"), content)
        self.assertEqual(lines, ["put aside a.pkt: " + self.reason("a.pkt")])
        self.assertRegex(self.content("log").decode(), r"^[-0-9T:]{19}Z aside a\.pkt from [0-9:/.]+ gate: ")
        return self.reason("a.pkt")

    def test_no_password(self):
        self.assertEqual(self.aside(packet(echomail(1), password=b"")), "gate: no packet password of 2:5020/1")

    def test_wrong_password(self):
        self.assertEqual(self.aside(packet(echomail(1), password=b"secre")), "gate: wrong packet password of 2:5020/1")

    def test_blanks_count(self):
        self.assertEqual(self.aside(packet(echomail(1), password=b"secret  ")), "gate: wrong packet password of 2:5020/1")

    def test_unknown_point(self):
        content = header(by=(2, 5020, 1, 9), plus=True) + echomail(1) + END
        self.assertEqual(self.aside(content), "gate: unknown point 2:5020/1.9")

    def test_for_a_point(self):
        content = header(to=(2, 5020, 100, 9), plus=True, password=b"secret") + echomail(1) + END
        self.assertEqual(self.aside(content), "gate: not for this system but 2:5020/100.9")

    def test_no_word_of_a_password(self):
        self.aside(packet(echomail(1), password=b"hush"))
        for name in ("log", "bad/a.pkt.why"):
            self.assertNotIn(b"hush", self.content(name))
            self.assertNotIn(b"secret", self.content(name))

    def test_good_passwords(self):
        for password in (b"secret", b"SECRET", b"Secret\0x"):
            self.put("inbound/a.pkt", packet(echomail(1), password=password))
            self.assertEqual(self.gate()[0], 0, password)
        self.assertEqual(len([name for name in self.names("tossing") if name.endswith(".pkt")]), 3)

    def test_others_need_none(self):
        self.put("inbound/a.pkt", packet(echomail(1), by=(2, 5020, 2, 0), password=b"x"))
        self.assertEqual(self.gate(), (0, []))
        self.assertEqual(self.passed()["a.pkt"], header(by=(2, 5020, 2, 0)) + echomail(1) + END)

    def test_for_another_system_goes_on(self):
        content = header(to=(2, 5020, 200, 0), password=b"secret") + echomail(1) + END
        self.put("inbound/a.pkt", content)
        self.assertEqual(self.gate(), (0, []))
        self.assertEqual(self.passed()["a.pkt"][:58], header(to=(2, 5020, 200, 0)))

    def test_no_packets_go_on(self):
        """The tosser names their faults."""
        for name, content in (("a.pkt", b""), ("b.pkt", b"short"), ("c.pkt", header()[:18] + b"\3\0" + header()[20:] + END)):
            self.put("inbound/" + name, content)
        self.assertEqual(self.gate(), (0, []))
        self.assertEqual(self.passed(), {"a.pkt": b"", "b.pkt": b"short", "c.pkt": header()[:18] + b"\3\0" + header()[20:] + END})


class Names(build.StationCase):
    """Which files are taken, and their names."""

    peers = ""

    def test_taken(self):
        others = ["x.tic", "x.zip", "x.dt", "x.hr", "x.pkt.bad", "x.mo", "x.mo00", "x.msg", "mo0"]
        for name in ["a.pkt", "B.PKT", "c.PkT", *others]:
            self.put("inbound/" + name, packet(echomail(1)))
        self.assertEqual(self.gate()[0], 0)
        self.assertEqual(self.names("inbound"), sorted(others))
        self.assertEqual(sorted(self.passed()), ["B.PKT", "a.pkt", "c.PkT"])

    def test_no_regular_files(self):
        os.mkdir(self.at("inbound", "a.pkt"))
        os.mkfifo(self.at("inbound", "b.pkt"))
        os.symlink("/etc/passwd", self.at("inbound", "c.pkt"))
        os.mkfifo(self.at("inbound", "d.su0"))
        self.put("inbound/e.pkt", packet(echomail(1)))
        status, _ = self.gate()
        self.assertEqual((status, sorted(self.passed())), (1, ["e.pkt"]))
        for name in ("a.pkt", "b.pkt", "c.pkt", "d.su0"):
            self.assertEqual(self.reason(name), "gate: no regular file")
        self.assertEqual(os.readlink(self.at("bad", "c.pkt")), "/etc/passwd")

    def test_odd_names(self):
        for name in (b"2\xff\x1b[2J.pkt", b"x" * 240 + b".pkt", b" .pkt", b"line\nend.pkt"):
            path = os.fsencode(self.at("inbound")) + b"/" + name
            with open(path, "wb") as file:
                file.write(header(by=(2, 5020, 1, 9), plus=True) + END)
        status, lines = self.gate()
        self.assertEqual((status, len(lines)), (1, 4))
        for line in lines + self.content("log").decode().split("\n"):
            self.assertTrue(line.isprintable(), line)
        found = [name for name in os.listdir(os.fsencode(self.at("bad"))) if not name.endswith(b".why")]
        self.assertEqual(sorted(found), sorted([b"2\xff\x1b[2J.pkt", b" .pkt", b"line\nend.pkt", b"00000004.pkt"]))

    def test_same_name_twice(self):
        for content in (packet(echomail(1), password=b""), packet(echomail(2), password=b"")):
            self.put("peers", b"PEER 2:5020/1 PASSWORD secret\n")
            for _ in range(2):
                self.put("inbound/a.pkt", content)
                self.assertEqual(self.gate()[0], 1)
        self.assertEqual(self.names("bad"), ["a.1.pkt", "a.1.pkt.why", "a.pkt", "a.pkt.why"])


class Letters(build.StationCase):
    """Letters in packets."""

    def test_mixed(self):
        self.put("inbound/1.pkt", packet(letter(91), echomail(5), letter(92, 7), letter(93, 100, b"\1TOPT 7\r"), echomail(6)))
        status, lines = self.gate()
        self.assertEqual(status, 1)
        self.assertEqual(self.passed(), {"1.pkt": CLEAN + echomail(5) + echomail(6) + END})
        self.assertEqual(
            lines,
            [
                "letter 2.msg from 2:5020/1 to 2:5020/100",
                "letter 3.msg from 2:5020/1 to 2:5020/100.7",
                "put aside 1.letters.pkt: gate: 1 letters, the first for 2:5020/7; add PASS to PEER 2:5020/1",
            ],
        )
        self.assertEqual(self.content("bad", "1.letters.pkt"), packet(letter(92, 7)))
        text = b"\1INTL 2:5020/100 2:5020/1\r\1MSGID: 2:5020/1 0000005b\rletter 91\r"
        self.assertEqual(self.content("netmail", "2.msg"), build.stored(text, 1, OWN, UPLINK, (b"Ann", b"Bob", b"Hi")))
        routed = build.stored(b"", 0x21, (2, 5020, 100, 7), UPLINK, (b"Ann", b"Bob", b"Hi"))[:190]
        self.assertEqual(self.content("netmail", "3.msg")[:190], routed)

    def test_without_intl(self):
        self.put("inbound/1.pkt", packet(message(b"hello\r", attributes=0xFFFF)))
        self.assertEqual(self.gate()[0], 0)
        self.assertEqual(self.content("netmail", "2.msg"), build.stored(b"hello\r", 0x7011, OWN, UPLINK, (b"Ann", b"All", b"Hi")))
        self.assertEqual(self.passed(), {})

    def test_area_behind_a_kludge(self):
        self.put("inbound/1.pkt", packet(message(b"\1PID: x\rAREA:TEST\rBody\r"), message(b"\n\nAREA:TEST\rBody\r"), message(b"area:TEST\r")))
        self.assertEqual(self.gate()[0], 0)
        self.assertEqual(self.passed(), {"1.pkt": CLEAN + message(b"\n\nAREA:TEST\rBody\r") + END})
        self.assertEqual(self.names("netmail"), ["2.msg", "3.msg"])

    def test_of_a_point(self):
        self.put("inbound/1.pkt", header(by=(2, 5020, 100, 7), plus=True) + letter(1, 55) + END)
        status, lines = self.gate()
        self.assertEqual((status, lines), (0, ["letter 2.msg from 2:5020/1 to 2:5020/55"]))
        self.assertEqual(struct.unpack_from("<H", self.content("netmail", "2.msg"), 186)[0], 0x21)

    def test_once(self):
        for name in ("1.pkt", "2.pkt"):
            self.put("inbound/" + name, packet(letter(91)))
            self.gate()
        self.assertEqual(self.names("netmail"), ["2.msg"])
        self.assertIn(b" known letter from 2:5020/1\n", self.content("log"))
        os.unlink(self.at("netmail", "2.msg"))
        self.put("inbound/3.pkt", packet(letter(91)))
        self.gate()
        self.assertEqual(self.names("netmail"), [])

    def test_never_over_a_file(self):
        for name in ("1.msg", "2.MSG", "7.msg", "x.msg"):
            self.put("netmail/" + name, b"mine")
        self.put("inbound/1.pkt", packet(letter(91), letter(94)))
        self.assertEqual(self.gate()[0], 0)
        self.assertEqual(self.names("netmail"), ["1.msg", "2.MSG", "7.msg", "8.msg", "9.msg", "x.msg"])
        for name in ("1.msg", "2.MSG", "7.msg", "x.msg"):
            self.assertEqual(self.content("netmail", name), b"mine")

    def test_large_numbers(self):
        for line in (b"\1INTL 99999999999999999999:5020/100 2:5020/1\r", b"\1INTL 2:5020/100 2:5020/1\r\1TOPT 99999999999\r"):
            self.put("inbound/1.pkt", packet(message(line + b"x\r")))
            self.assertEqual(self.gate()[0], 1, line)


class Repair(build.StationCase):
    """Packets of which a part can be read."""

    def repaired(self, content: bytes, wanted: list[int], why: str) -> None:
        """A packet with damage: the messages that go on, and the reason."""
        self.put("inbound/a.pkt", content)
        status, _ = self.gate()
        self.assertEqual((status, self.reason("a.pkt")), (1, "gate: %d messages passed on; %s" % (len(wanted), why)))
        self.assertEqual(self.content("bad", "a.pkt"), content)
        expected = {"a.pkt": CLEAN + b"".join(map(echomail, wanted)) + END} if wanted else {}
        self.assertEqual(self.passed(), expected)

    def test_cut_end(self):
        one = packet(echomail(1))
        self.repaired(packet(echomail(1), echomail(2))[:-20], [1], "P1 Truncated at %d" % (len(one) - 2))

    def test_no_end(self):
        self.repaired(packet(echomail(1))[:-2], [1], "P1 Truncated at %d" % (len(packet(echomail(1))) - 2))

    def test_junk_between(self):
        content = packet(echomail(1), b"junk", echomail(2))
        self.repaired(content, [1, 2], "P3 NotMessage at %d" % (58 + len(echomail(1))))

    def test_early_end(self):
        content = packet(echomail(1), END, echomail(2), echomail(3))
        self.repaired(content, [1, 2, 3], "an end before messages at %d" % (58 + len(echomail(1))))

    def test_beginning_that_was_taken(self):
        """Bytes that are read as a message, and would have the beginning of the next one as their names."""
        self.repaired(packet(b"\2\0" + bytes(32), echomail(2), echomail(3)), [2, 3], "P3 NotMessage at 58")

    def test_endless_name(self):
        content = packet(echomail(1), echomail(2, by=b"x" * 5000), echomail(3))
        self.repaired(content, [1, 3], "P4 FieldTooLong at %d" % (58 + len(echomail(1))))

    def test_long_text(self):
        content = packet(echomail(1), message(b"AREA:TEST\r" + b"x" * 1500000), echomail(3))
        self.repaired(content, [1, 3], "P5 TextTooLong at %d" % (58 + len(echomail(1))))

    def test_longest_text(self):
        long = message(b"AREA:TEST\r" + b"x" * (1500000 - 10))
        self.put("inbound/a.pkt", packet(long))
        self.assertEqual((self.gate(), self.passed()), ((0, []), {"a.pkt": CLEAN + long + END}))

    def test_cut_names(self):
        content = packet(echomail(1, by=b"B" * 60), echomail(2, to=b"T" * 36, subject=b"S" * 72), echomail(3, by=b"b" * 35, subject=b"s" * 71))
        self.put("inbound/a.pkt", content)
        self.assertEqual(self.gate(), (0, []))
        wanted = (echomail(1, by=b"B" * 35), echomail(2, to=b"T" * 35, subject=b"S" * 71), echomail(3, by=b"b" * 35, subject=b"s" * 71))
        self.assertEqual(self.passed(), {"a.pkt": CLEAN + b"".join(wanted) + END})
        log = [line.split(" ", 1)[1] for line in self.content("log").decode().split("\n")[:-1]]
        second = 58 + len(echomail(1, by=b"B" * 60))
        self.assertEqual(
            log,
            [
                "cut a.pkt from 2:5020/1 from of 60 bytes at 58",
                "cut a.pkt from 2:5020/1 to of 36 bytes at %d" % second,
                "cut a.pkt from 2:5020/1 subject of 72 bytes at %d" % second,
            ],
        )

    def test_letters_of_a_damaged_packet(self):
        self.put("inbound/a.pkt", packet(letter(91), b"junk", echomail(2)))
        self.gate()
        self.assertEqual(self.names("netmail"), ["2.msg"])
        self.assertEqual(self.reason("a.pkt"), "gate: 2 messages passed on; P3 NotMessage at %d" % (58 + len(letter(91))))

    def test_many_faults_in_one_line(self):
        self.put("inbound/a.pkt", packet(*(b"junk" + echomail(n) for n in range(1, 31))))
        self.gate()
        self.assertEqual(self.reason("a.pkt").count("P3 NotMessage"), 20)
        self.assertEqual(ids_in(self.passed()["a.pkt"]), list(range(1, 31)))


class Points(build.StationCase):
    """SEEN-BY lines of points."""

    seen = b"5020/1 100 31000/7 8"
    stripped = b"5020/1 100 31000/8"

    def test_of_others(self):
        self.put("inbound/a.pkt", packet(echomail(1, seen=self.seen), echomail(2, seen=b"31000/7"), echomail(3)))
        self.assertEqual(self.gate(), (0, []))
        second = echomail(2, seen=b"31000/7").replace(b"SEEN-BY: 31000/7\r", b"")
        self.assertEqual(self.passed(), {"a.pkt": CLEAN + echomail(1, seen=self.stripped) + second + echomail(3) + END})

    def test_of_the_point_itself(self):
        self.put("inbound/a.pkt", header(by=(2, 5020, 100, 7), plus=True) + echomail(1, seen=self.seen) + END)
        self.assertEqual(self.gate(), (0, []))
        self.assertEqual(self.passed(), {"a.pkt": header(by=(2, 31000, 7, 0)) + echomail(1, seen=self.seen) + END})

    def test_not_in_the_body(self):
        body = message(b"AREA:TEST\rSEEN-BY: 31000/7\rBody\r * Origin: o (2:5020/1)\rSEEN-BY: 5020/1\r")
        self.put("inbound/a.pkt", packet(body))
        self.assertEqual((self.gate(), self.passed()), ((0, []), {"a.pkt": CLEAN + body + END}))


class Shared(build.StationCase):
    """Stations that share the mailer's folder."""

    peers = build.PEERS + "LEAVE 21:1/100\n"
    other = header(by=(21, 1, 1, 0), to=(21, 1, 100, 0), password=b"fsx") + echomail(9) + END

    def test_left(self):
        self.put("inbound/other.pkt", self.other)
        self.put("inbound/short.pkt", b"short")
        self.put("inbound/mine.pkt", packet(echomail(1)))
        self.assertEqual(self.gate(), (0, []))
        self.assertEqual((self.names("inbound"), sorted(self.passed())), (["other.pkt"], ["mine.pkt", "short.pkt"]))

    def test_out_of_a_bundle(self):
        for name in ("0000aaaa.mo0", "0000aaab.mo0"):
            self.put("inbound/" + name, build.zipped(("a.pkt", packet(echomail(1))), ("b.pkt", self.other)))
            self.assertEqual(self.gate(), (0, []))
        names = self.names("inbound")
        self.assertEqual([self.content("inbound", name) for name in names], [self.other])
        self.assertRegex(names[0], r"^[0-9a-f]{8}\.pkt$")

    def test_back_beside_another_file(self):
        bundle = build.zipped(("b.pkt", self.other))
        self.put("inbound/0000aaaa.mo0", bundle)
        self.gate()
        name = self.names("inbound")[0]
        self.put("inbound/" + name, self.other.replace(b"Ann", b"Eve"))
        self.put("inbound/0000aaaa.mo0", bundle)
        self.gate()
        self.assertEqual(len(self.names("inbound")), 2)
        self.assertIn(b"Eve", self.content("inbound", name))

    def test_leaves_all_but_its_own(self):
        self.put("peers", b"PEER 2:5020/1\nLEAVE *\n")
        self.put("inbound/other.pkt", self.other)
        self.put("inbound/short.pkt", b"short")
        self.put("inbound/0000aaaa.mo0", build.zipped(("a.pkt", packet(echomail(2)))))
        self.put("inbound/mine.pkt", packet(echomail(1)))
        self.assertEqual(self.gate(), (0, []))
        self.assertEqual(self.names("inbound"), ["0000aaaa.mo0", "other.pkt", "short.pkt"])
        self.assertEqual(sorted(self.passed()), ["mine.pkt"])


if __name__ == "__main__":
    unittest.main()
