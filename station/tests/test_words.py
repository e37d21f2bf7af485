"""Command lines, help and statuses."""
import os
import re
import subprocess
import tempfile
import unittest

import build
from echonet_station.words import ALL_STATUSES, WORDS


class Help(build.StationCase):
    """The help of each word."""

    def without_station(self, *words: str) -> build.Ran:
        """Runs a command line without a station in front."""
        top, self.top = self.top, words[0]
        ran = self.run_tool(*words[1:])
        self.top = top
        return ran

    def test_general(self):
        ran = self.run_tool()
        self.assertEqual((ran.returncode, ran.stdout), (4, b""))
        for words in (["--help"], ["-h"], ["help"]):
            ran = self.without_station(*words)
            self.assertEqual(ran.returncode, 0)
            commands = re.findall(r"^  ([a-z]+) ", ran.stdout.decode().split("Commands:")[1].split("\n\n")[0], re.M)
            self.assertEqual(commands, [word.name for word in WORDS])

    def test_each(self):
        for word in WORDS:
            texts = {self.run_tool(word.name, "--help").stdout}
            texts.add(self.without_station(word.name, "--help").stdout)
            texts.add(self.without_station("help", word.name).stdout)
            self.assertEqual(texts, {(word.help() + "\n").encode()})
            self.assertLessEqual(max(map(len, word.help().split("\n"))), 120)

    def test_nothing_is_done(self):
        self.put("inbound/a.pkt", build.packet(build.echomail(1)))
        for word in ("toss", "gate", "retoss", "new"):
            self.assertEqual(self.run_tool(word, "--help").returncode, 0)
        self.assertEqual(self.names(), ["inbound", "links", "peers"])


class Manual(unittest.TestCase):
    """The manual page says what the help says."""

    def setUp(self) -> None:
        with tempfile.TemporaryDirectory() as place:
            subprocess.run([os.path.join(build.STATION, "..", "scripts", "manual_pages.py"), place], check=True)
            page = build.content(os.path.join(place, "echonet-station.1")).decode()
        self.page = re.sub(r"\\f[A-Z]", "", page.replace("\\-", "-"))

    def test_words(self):
        commands = self.page.split(".SH COMMANDS")[1].split(".SH EXIT")[0]
        heads = dict(re.findall(r"^\.SS ([a-z]+) ?(.*)$", commands, re.M))
        self.assertEqual(list(heads), [word.name for word in WORDS])
        for word in WORDS:
            options = "".join("[%s] " % name for name, _ in word.options)
            usage = word.usage.replace("[OPTIONS] ", options).replace("[OPTIONS]", options.strip())
            self.assertEqual(heads[word.name], re.sub("[<>]", "", usage), word.name)
            part = re.split(r"\.SS %s(?=[ \n])" % word.name, commands)[1].split("\n.SS ")[0]
            self.assertEqual(re.findall(r"^\.BI? \"?(--[a-z-]+)", part, re.M), [name.split(" ")[0] for name, _ in word.options])

    def test_statuses(self):
        part = self.page.split(".SH EXIT STATUS")[1].split(".SH ")[0]
        self.assertEqual(tuple("  ".join(pair) for pair in re.findall(r"^\.B ([0-9])\n(.*)$", part, re.M)), ALL_STATUSES)

    def test_faults_of_peers(self):
        faults = re.findall(r"K[1-9] [A-Za-z]+", build.content(os.path.join(build.STATION, "echonet_station", "peers.py")).decode())
        for fault in set(faults):
            self.assertIn(fault, self.page)


class Statuses(build.StationCase):
    """How runs end."""

    def test_command_lines(self):
        for words in (("nothing",), ("gate", "x"), ("status", "x"), ("flow", "1"), ("new", "1:2/3"), ("post", "A"), ("toss", "x"), ("scan", "--locked"), ("purge", "--older")):
            ran = self.run_tool(*words)
            self.assertEqual((ran.returncode, ran.stdout), (4, b""), words)
            self.assertTrue(ran.stderr)

    def test_no_station(self):
        for name in ("nowhere", "a\nb"):
            self.top = os.path.join(self.work, name)
            ran = self.run_tool("status")
            self.assertEqual((ran.returncode, ran.stdout), (4, b""))

    def test_no_links(self):
        os.unlink(self.at("links"))
        ran = self.run_tool("gate")
        self.assertEqual(ran.returncode, 3)
        self.assertEqual(ran.stderr, b"echonet-station: cannot use %s: No such file or directory\n" % self.at("links").encode())

    def test_no_own_address(self):
        for text in (b"AREA TEST\n", b"SYSTEM 2:5020/1\nSYSTEM 2:5020/1\n", b"SYSTEM x\n"):
            self.put("links", text)
            ran = self.run_tool("gate")
            self.assertEqual((ran.returncode, ran.stderr), (2, b"echonet-station: no own address in links\n"))

    def test_full_output(self):
        self.put("peers", b"")
        self.put("inbound/a.pkt", build.header(plus=True, by=(2, 5020, 1, 9)) + build.END)
        for word in ("status", "gate"):
            with open("/dev/full", "wb") as full:
                ran = build.subprocess.run([build.TOOL, self.top, word], stdout=full, stderr=-1, check=False)
            self.assertEqual(ran.returncode, 3, word)

    def test_odd_settings(self):
        self.put("settings", b'OUTBOUND=$(printf "a\\nb")\n')
        self.assertEqual(self.run_tool("gate").returncode, 4)
        self.put("settings", b"exit 7\n")
        self.assertEqual(self.run_tool("gate").returncode, 2)

    def test_no_log(self):
        os.mkdir(self.at("log"))
        self.put("inbound/a.pkt", build.packet(build.letter(1)))
        ran = self.run_tool("gate")
        self.assertEqual((ran.returncode, self.names("netmail")), (3, ["2.msg"]))

    def test_what_python_raises(self):
        """Its own status would be 1, which says that something was put aside."""
        os.mkdir(self.at("netmail.known"))
        self.put("inbound/a.pkt", build.packet(build.letter(1)))
        self.assertEqual(self.run_tool("gate").returncode, 3)
        broken = os.path.join(self.work, "echonet-station")
        build.put(broken, build.content(build.TOOL))
        ran = build.subprocess.run([build.sys.executable, broken, self.top, "gate"], capture_output=True, check=False)
        self.assertEqual((ran.returncode, ran.stdout), (3, b""))


class Runs(build.StationCase):
    """Commands that move mail."""

    def post(self) -> None:
        """Posts a message."""
        body = os.path.join(self.work, "body")
        build.put(body, b"Hello\n")
        with open(body, "rb") as file:
            posted = self.run_tool("post", "TEST", "All", "Ann", "Hi", stdin=file)
        self.assertRegex(posted.stdout.decode(), r"^posted TEST 2:5020/100 [0-9a-f]{8}\n$")

    def test_round(self):
        self.post()
        self.put("inbound/1.su0", build.zipped(("x", build.packet(build.echomail(1), build.letter(2)))))
        tossed = self.run_tool("toss")
        self.assertEqual((tossed.returncode, tossed.stdout.decode().split("\n")[1]), (0, "filed 1 known 0 notecho 0 badtag 0 noarea 0 notlinked 0"))
        self.put("netmail/9.msg", build.stored(b"out\r"))
        scanned = self.run_tool("scan")
        self.assertEqual(scanned.returncode, 0, scanned.stderr)
        flows = [os.path.join(folder, name) for folder, _, names in os.walk(self.at("outbound")) for name in names]
        self.assertEqual(sorted(flows), [self.at("outbound", "139c0001.flo"), self.at("outbound", "139c0064.pnt", "00000007.flo")])
        packets = [self.content("packets", name) for name in self.names("packets")]
        self.assertEqual(sorted(content[26:32] for content in packets), [bytes(6), b"secret", b"secret"])
        self.assertEqual(self.names("scanned"), [])

    def test_gate_fails(self):
        """What is in tossing/ is tossed, and the status is that of the gate."""
        self.put("peers", b"x\n")
        self.put("inbound/2.pkt", build.packet(build.echomail(2)))
        self.put("tossing/00000001.pkt", build.header() + build.echomail(1) + build.END)
        ran = self.run_tool("toss")
        self.assertEqual((ran.returncode, ran.stdout.decode()), (2, "filed 1 known 0 notecho 0 badtag 0 noarea 0 notlinked 0\n"))
        self.assertEqual(self.names("inbound"), ["2.pkt"])

    def test_dress_fails(self):
        """Nothing is handed over without its password."""
        self.post()
        self.put("peers", b"x\n")
        ran = self.run_tool("scan")
        self.assertEqual((ran.returncode, self.names("packets"), len(self.names("scanned"))), (2, [], 2))
        self.put("peers", build.PEERS.encode())
        self.assertEqual(self.run_tool("scan").returncode, 0)
        self.assertEqual((len(self.names("packets")), self.names("scanned")), (2, []))

    def test_without_peers(self):
        """A bundle stays."""
        os.unlink(self.at("peers"))
        self.put("inbound/1.su0", build.zipped(("x", build.packet(build.echomail(1)))))
        self.put("inbound/2.pkt", build.header(password=b"any") + build.echomail(2) + build.END)
        ran = self.run_tool("toss")
        self.assertEqual((ran.returncode, ran.stdout.decode()), (0, "filed 1 known 0 notecho 0 badtag 0 noarea 0 notlinked 0\n"))
        self.assertEqual((self.names("inbound"), self.names("gate")), (["1.su0"], []))

    def test_run(self):
        """The scan runs also if the toss failed, and the greatest status counts."""
        self.post()
        self.put("tossing/00000001.pkt", build.header() + build.echomail(1) + build.END)
        self.put("peers", build.PEERS.encode())
        os.mkdir(self.at("gate"))
        os.mkdir(self.at("gate", "00000001.new"))  # the gate cannot remove it
        ran = self.run_tool("run")
        self.assertEqual((ran.returncode, len(self.names("packets"))), (3, 2))
        os.rmdir(self.at("gate", "00000001.new"))
        self.put("inbound/1.pkt", build.packet(build.echomail(1, tag=b"NEW")))
        self.assertEqual(self.run_tool("run").returncode, 1)


if __name__ == "__main__":
    unittest.main()
