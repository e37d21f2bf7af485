"""Command lines: a station that is left out, a folder of stations, closed pipes."""
import os
import unittest

import build
from build import echomail
from echonet_station.words import WORDS

TOOL = (build.sys.executable, build.TOOL)


class Lines(build.StationCase):
    """Runs in several folders."""

    def tool(self, folder: str, *words: str, **options) -> build.Ran:
        """Runs a command line in a folder."""
        env = dict(os.environ, ECHONET=build.program())
        ran = build.subprocess.run([*TOOL, *words], cwd=folder, capture_output=True, check=False, env=env, timeout=600, **options)
        return build.Ran(ran.returncode, ran.stdout, ran.stderr)


class Here(Lines):
    """The station may be left out where it is."""

    def test_in_its_folder(self):
        there, here = self.tool(self.work, self.top, "status"), self.tool(self.top, "status")
        self.assertEqual((here.returncode, here.stdout.split(b"\ndisk")[0]), (0, there.stdout.split(b"\ndisk")[0]))
        self.assertEqual(self.tool(self.top, "purge").returncode, 4)

    def test_no_station(self):
        empty = os.path.join(self.work, "empty")
        os.mkdir(empty)
        for word, least in ((word.name, word.least) for word in WORDS):
            words = {"new": ["1:2/3", "N", "1:2/4", "h", "p", "T"], "post": ["A", "B", "C", "D"], "read": ["f"], "flow": ["1", "2", "3"]}.get(word, ["x"] * least)
            ran = self.tool(empty, word, *words)
            self.assertEqual((ran.returncode, ran.stdout, ran.stderr), (4, b"", b"echonet-station: no station here: give its folder\n"), word)
        self.assertEqual(os.listdir(empty), [])

    def test_named_like_a_command(self):
        """It is a station if it is there and a command follows."""
        os.rename(self.top, os.path.join(self.work, "status"))
        self.assertIn(b"station 2:5020/100", self.tool(self.work, "status", "status").stdout)
        self.assertEqual(self.tool(self.work, "scan", "status").stderr.split(b"\n")[0], b"Makes packets of what waits, and hands them to the mailer")
        ran = self.tool(self.work, "status")
        self.assertEqual((ran.returncode, ran.stdout.split(b"\n")[0]), (0, b"station status"))

    def test_help(self):
        general = self.tool(self.work, "--help").stdout
        for words in (("-h",), ("help",), (self.top, "--help"), (self.top, "-h"), (self.top, "help")):
            ran = self.tool(self.work, *words)
            self.assertEqual((ran.returncode, ran.stdout, ran.stderr), (0, general, b""), words)
        for word in WORDS:
            for words in ((word.name, "--help"), (word.name, "-h"), ("help", word.name), (self.top, word.name, "-h"), (self.top, word.name, "--help")):
                ran = self.tool(self.work, *words)
                self.assertEqual((ran.returncode, ran.stdout.decode(), ran.stderr), (0, word.help() + "\n", b""), words)
        ran = self.tool(self.top, "post", "TEST", "--help", "-h", "--", input=b"x\n")
        self.assertEqual((ran.returncode, ran.stdout.split(b" ")[0]), (0, b"posted"))


class Several(Lines):
    """A folder of stations."""

    def setUp(self) -> None:
        super().setUp()
        self.top = os.path.join(self.work, "fido")
        for name, number in (("b", 1), ("a", 2), (".hidden", 3), ("no", 4)):
            self.put(name + "/links", self.links.encode())
            self.put(name + "/inbound/1.pkt", build.header() + echomail(number) + build.END)
        os.unlink(self.at("no", "links"))

    def test_each(self):
        os.mkdir(self.at("b", "inbound", "2.pkt"))
        ran = self.tool(self.work, "fido", "run")
        self.assertEqual((ran.returncode, ran.stdout.decode().split("\n")), (1, [
            "station a", "filed 1 known 0 notecho 0 badtag 0 noarea 0 notlinked 0", "packet 2:31000/7 1 messages " + ran.stdout.decode().split(" messages ")[1].split("\n")[0],
            "station b", "1.pkt: filed 1 known 0 notecho 0 badtag 0 noarea 0 notlinked 0", "packet 2:31000/7 1 messages " + ran.stdout.decode().split(" messages ")[1].split("\n")[0], ""]))
        lines = ran.stderr.decode().split("\n")
        self.assertEqual([line for line in lines if not line.startswith("echonet: note")], ["station b", lines[-2], ""])
        self.assertTrue(lines[-2].startswith("put aside 2.pkt: echonet: cannot use "))
        self.assertEqual((self.names("no"), self.names(".hidden", "inbound")), (["inbound"], ["1.pkt"]))
        again = self.tool(self.at(), "run")
        self.assertEqual((again.returncode, again.stdout, again.stderr), (0, b"station a\nstation b\n", b""))

    def test_one_fails(self):
        """It stops none."""
        self.put("a/links", b"FOO\n")
        ran = self.tool(self.at(), "toss")
        self.assertEqual((ran.returncode, ran.stdout.decode().split("\n")[:2]), (2, ["station a", "station b"]))
        self.assertEqual(ran.stderr.decode().split("\n")[:2], ["station a", "echonet: L1 UnknownWord line 1"])
        self.assertIn("filed 1", ran.stdout.decode())
        for word in ("scan", "status", "doctor"):
            ran = self.tool(self.work, "fido", word)
            self.assertEqual(ran.stdout.decode().count("station "), 3 if word == "status" else 2, word)

    def test_other_commands(self):
        for words in (("gate",), ("repair",), ("status", "--json"), ("status", "--page", "x.html"), ("accept",), ("publish",)):
            ran = self.tool(self.work, "fido", *words)
            self.assertEqual(ran.returncode, 4, words)
            if len(words) == 1:
                self.assertEqual(ran.stderr, b"echonet-station: fido is a folder of stations: give one\n")
        ran = self.tool(self.at(), "repair")
        self.assertEqual(ran.stderr, b"echonet-station: . is a folder of stations: give one\n")


class Pipes(Lines):
    """A reader that ends stops no work."""

    def closed(self, *words: str, errors: bool = False) -> tuple[int, bytes]:
        """Runs with a standard output that nobody reads, and perhaps also such a standard error."""
        reading, writing = os.pipe()
        os.close(reading)
        env = dict(os.environ, ECHONET=build.program())
        ran = build.subprocess.run([*TOOL, self.top, *words], stdout=writing, stderr=writing if errors else -1, check=False, env=env, timeout=600)
        os.close(writing)
        return ran.returncode, ran.stderr or b""

    def test_closed(self):
        self.put("inbound/1.pkt", build.packet(echomail(1), build.letter(2)))
        self.put("inbound/2.pkt", build.packet(echomail(3), password=b"wrong"))
        status, told = self.closed("run")
        self.assertEqual((status, b"Broken" in told, b"put aside 2.pkt" in told), (1, False, True))
        self.assertEqual((self.names("inbound"), self.names("tossing"), self.names("netmail"), len(self.names("packets"))), ([], [], ["2.msg"], 1))
        for words in (("status",), ("doctor",), ("publish",), ("--help",), ("retoss",), ("accept",)):
            status, told = self.closed(*words)
            self.assertNotIn(b"Broken", told)
            self.assertLess(status, 2, words)

    def test_both_closed(self):
        self.put("inbound/2.pkt", build.packet(echomail(3), password=b"wrong"))
        self.put("inbound/3.pkt", build.packet(echomail(4)))
        self.assertEqual(self.closed("run", errors=True)[0], 1)
        self.assertEqual((self.names("inbound"), self.names("tossing"), self.names("bad")), ([], [], ["2.pkt", "2.pkt.why"]))

    def test_full_output(self):
        """The work is done, and the status is that of a device."""
        self.put("inbound/3.pkt", build.packet(echomail(4)))
        with open("/dev/full", "wb") as full:
            env = dict(os.environ, ECHONET=build.program())
            ran = build.subprocess.run([*TOOL, self.top, "run"], stdout=full, stderr=-1, check=False, env=env)
        self.assertEqual((ran.returncode, ran.stderr.split(b"\n")[-2]), (3, b"echonet-station: cannot use standard output: No space left on device"))
        self.assertEqual((self.names("inbound"), self.names("tossing")), ([], []))


if __name__ == "__main__":
    unittest.main()
