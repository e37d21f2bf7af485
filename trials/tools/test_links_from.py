"""Tests of links-from: link files from configurations of other tossers, written by hand."""
import os
import shutil
import tempfile
import unittest

import fixtures
from fixtures import files, write


class Case(unittest.TestCase):
    """Configurations in a folder of their own."""

    def setUp(self):
        self.place = tempfile.mkdtemp()
        self.addCleanup(shutil.rmtree, self.place)

    def write(self, name, text):
        """Writes a file, in a folder if its name says so."""
        path = os.path.join(self.place, name)
        os.makedirs(os.path.dirname(path), exist_ok=True)
        return write(path, text.encode("cp437"))

    def run_tool(self, *words):
        """The lines of a run, and those on standard error, without the name of the tool."""
        ended = fixtures.run("links-from", *words, cwd=self.place)
        self.assertEqual(ended.status, 0, ended.fault)
        return ended.out.splitlines(), [line.partition(": ")[2] for line in ended.fault.splitlines()]


class Hpt(Case):
    """The configuration of hpt."""

    def test_include(self):
        """Included files are read in their place, also nested ones, by variables, and with defaults from outside."""
        self.write("config", 'Address 2:5020/100@fidonet\nset areas="parts"\nEchoAreaDefaults -b Jam\nInclude [areas]/echo\n'
                             "EchoAreaDefaults off\nEchoArea LAST /msg/last 2:5020/4\n")
        self.write("parts/echo", "EchoArea FIRST /jam/first 2:5020/1\ninclude more # a note\n")
        self.write("parts/more", "EchoArea NEXT /jam/next 2:5020/2 2:5020/3\n")
        self.assertEqual(self.run_tool("hpt", "2:5020/100", "config"), (
            ["SYSTEM 2:5020/100", "AREA FIRST 2:5020/1", "AREA NEXT 2:5020/2 2:5020/3", "AREA LAST 2:5020/4"], []))
        self.assertEqual(self.run_tool("--bases", "hpt", "2:5020/100", "config")[0],
                         ["FIRST jam /jam/first", "NEXT jam /jam/next", "LAST msg /msg/last"])

    def test_left_out(self):
        """Each kind of thing that is left out has one line, with a count: also included files that cannot be read."""
        self.write("config", "Address 2:5020/100\nInclude missing\nInclude absent\nInclude config\nifdef X\nEchoArea A /a 2:5020/1 -r 2:5020/2.7 "
                             "2:5020/2.8 2:5020/3 -w 2:*/*\nEchoArea B /b -a 1:10/2 1:10/1\nEchoArea C /c -a 1:10/2 1:10/1\nEchoArea A /a\n")
        self.assertEqual(self.run_tool("hpt", "2:5020/100", "config"), (["SYSTEM 2:5020/100", "AREA A 2:5020/1 2:5020/3"], [
            "included files that cannot be read: 2, first 'missing'", "files included again: 1, first 'config'",
            "conditions that are not judged: 1, first 'ifdef X'",
            "areas that come again: 1, first 'A'",
            "areas of another own address (--aka writes them): 2, first 'B' of 1:10/2",
            "links in one way there, in both ways here: 2, first 2:5020/1 of A, read-only",
            "points: 2, first 2:5020/2.7", "links that are not understood: 1, first '2:*/*' in A"]))

    def test_aka(self):
        """With --aka each own address gets its link file."""
        self.write("config", "Address 2:5020/100\nAddress 1:10/2\nEchoArea A /a 2:5020/1\nEchoArea B /b -a 1:10/2@fidonet 1:10/1\n"
                             "EchoArea C /c -a 1:10/2.0 1:10/3 1:10/1\nEchoArea D /d -a 1:10/2.5 1:10/3\n")
        self.assertEqual(self.run_tool("--aka", "net", "hpt", "2:5020/100", "config"),
                         ([], ["areas of an own point or of no address: 1, first 'D' of 1:10/2.5"]))
        self.assertEqual(files(os.path.join(self.place, "net")), {
            "2.5020.100": "SYSTEM 2:5020/100\nAREA A 2:5020/1\n", "1.10.2": "SYSTEM 1:10/2\nAREA B 1:10/1\nAREA C 1:10/3 1:10/1\n"})
        self.assertEqual(fixtures.run("links-from", "--aka", "net", "hpt", "2:5020/100", "config", cwd=self.place).status, 2)


class Peers(Case):
    """The file `peers`."""

    def peers(self):
        """The file, which nobody else may read."""
        path = os.path.join(self.place, "peers")
        self.assertEqual(os.stat(path).st_mode & 0o777, 0o600)
        with open(path, encoding="ascii") as file:
            return file.read().splitlines()

    def test_hpt(self):
        """Packet passwords, points of the own address, and local areas, which are counted."""
        self.write("config", "Address 2:5020/100\nLink Up\nAka 2:5020/1@fidonet\nPassword general\npktPwd SECRET\nLink Seven\naka 2:5020/100.7\n"
                             "password point7\nLink None\nAka 2:5020/5\nLink Long\nAka 2:5020/6\nPktPwd ninebytes\nLink Far\nAka 2:5020/9.1\nPktPwd x\n"
                             "LocalArea LOC.JUNK /x -b Jam\nLocalArea LOC.TWO /y\nEchoArea A /a 2:5020/1 2:5020/100.7 2:5020/100.8 2:5020/9.1\nEchoArea B /b 2:5020/6\n")
        left = ["local areas, which have no links: 2, first 'LOC.JUNK'"]
        self.assertEqual(self.run_tool("hpt", "2:5020/100", "config"), (["SYSTEM 2:5020/100", "AREA A 2:5020/1", "AREA B 2:5020/6"], [
            *left, "points: 3, first 2:5020/100.7"]))
        self.assertEqual(self.run_tool("--peers", "peers", "hpt", "2:5020/100", "config"), (
            ["SYSTEM 2:5020/100", "AREA A 2:5020/1 2:31000/7 2:31000/8", "AREA B 2:5020/6"],
            [*left, "points: 1, first 2:5020/9.1", "passwords over eight bytes, of which packets have the first eight: 1, first 2:5020/6",
             "links without an address, or points of others: 1, first '2:5020/9.1'"]))
        self.assertEqual(self.peers(), ["PEER 2:5020/1 PASSWORD SECRET", "POINT 2:31000/7 2:5020/100.7 PASSWORD point7",
                                        "PEER 2:5020/6 PASSWORD ninebyte", "POINT 2:31000/8 2:5020/100.8"])
        self.assertEqual(fixtures.run("links-from", "--peers=peers", "hpt", "2:5020/100", "config", cwd=self.place).status, 2)

    def test_others(self):
        """The passwords of CrashMail, Squish and SBBSecho."""
        self.write("prefs", 'NODE 1:10/1 "ZIP" "secret" AUTOADD\nNODE 1:10/3 "" ""\nLOCALAREA "LOC" 1:10/2 MSG /l\nAREA A 1:10/2\nEXPORT 1:10/1 1:10/3\n')
        self.write("squish.cfg", "Address 1:10/2\nPassword 1:10/1 SECRET\nEchoArea A /a 1:10/1\n")
        self.write("sbbsecho.ini", "AreaFile = areas.bbs\n[node:1:10/1@fidonet]\nPacketPwd = Secret\nSessionPwd = other\n")
        self.write("areas.bbs", "A A 1:10/1\n")
        for form, file, word in (("crashmail", "prefs", "secret"), ("squish", "squish.cfg", "SECRET"), ("sbbsecho", "sbbsecho.ini", "Secret")):
            _, left = self.run_tool("--peers", "peers", form, "1:10/2", file)
            self.assertEqual(self.peers(), ["PEER 1:10/1 PASSWORD " + word])
            self.assertEqual(left, ["local areas, which have no links: 1, first 'LOC'"] if form == "crashmail" else [])
            os.unlink(os.path.join(self.place, "peers"))


class Others(Case):
    """Squish, SBBSecho, and refusals."""

    def test_squish(self):
        """squish.cfg with flags, short addresses, an included file and an AREAS.BBS."""
        self.write("squish.cfg", "; a note\nAddress 2:5020/100\nAddress 1:10/2\nNetArea NETMAIL /net\nEchoArea one /one -$ -$m100 5020/1 2 2:5030/7 8\n"
                                 "EchoArea TWO /two -p1:10/2 1:10/1 3\nEchoArea THREE /three -0 2:5020/1 -x2:5020/1\nInclude more.cfg\nAreasBBS AREAS.BBS\n")
        self.write("more.cfg", "EchoArea FOUR /four 2:5020/9\n")
        self.write("AREAS.BBS", "Title ! Sysop\n!/jam/five FIVE 2:5020/5\n")
        self.assertEqual(self.run_tool("squish", "2:5020/100", "squish.cfg"), (
            ["SYSTEM 2:5020/100", "AREA ONE 2:5020/1 2:5020/2 2:5030/7 2:5030/8", "AREA THREE 2:5020/1", "AREA FOUR 2:5020/9",
             "AREA FIVE 2:5020/5"],
            ["links in one way there, in both ways here: 1, first 2:5020/1 of THREE, excluded",
             "areas of another own address (--aka writes them): 1, first 'TWO' of 1:10/2"]))
        self.assertEqual(self.run_tool("--bases", "squish", "2:5020/100", "squish.cfg"), (
            ["FOUR msg /four", "FIVE jam /jam/five"],
            ["links in one way there, in both ways here: 1, first 2:5020/1 of THREE, excluded",
             "areas of another own address (--aka writes them): 1, first 'TWO' of 1:10/2", "bases of another kind: 1, first ONE squish /one"]))

    def test_sbbsecho(self):
        """sbbsecho.ini with its area file, and own addresses by link."""
        self.write("ctrl/sbbsecho.ini", "AreaFile = ../data/areas.bbs\nLogFile = x\n[node:1:103/705]\nName = Hub\nLocalAddress = 1:103/1\n"
                                        "[node:21:1/100@fsxnet]\nLocalAddress = 21:1/2\nPassive = true\n; AreaFile = y\n")
        self.write("data/areas.bbs", "; a note\nFIDO_BBS   BBS_ADS  1:103/705 1:103/9\nP fsx_gen 21:1/100\nX\nLOCAL OWN\n")
        self.assertEqual(self.run_tool("--aka", "net", "sbbsecho", "1:103/1", "ctrl/sbbsecho.ini"), ([], [
            "links that are passive there, and links here: 1, first 21:1/100", "lines that are not understood: 1, first 'X'"]))
        self.assertEqual(files(os.path.join(self.place, "net")), {
            "1.103.1": "SYSTEM 1:103/1\nAREA BBS_ADS 1:103/705 1:103/9\nAREA OWN\n", "21.1.2": "SYSTEM 21:1/2\nAREA FSX_GEN 21:1/100\n"})
        self.write("other.ini", "[node:1:2/3]\n")
        self.assertEqual(self.run_tool("sbbsecho", "1:103/1", "other.ini"),
                         (["SYSTEM 1:103/1"], ["files without an AreaFile: 1, first 'other.ini'"]))

    def test_crashmail_and_areas(self):
        """The forms without includes."""
        self.write("prefs", 'AREA "ONE" 1:10/2 JAM "/jam one"\nEXPORT 1:10/1 !3 .7\nAREA "TWO" 1:10/2 MSG /msg\nUNCONFIRMED\nAREA DEFAULT 1:10/2\n')
        self.assertEqual(self.run_tool("crashmail", "1:10/2", "prefs"), (["SYSTEM 1:10/2", "AREA ONE 1:10/1 1:10/3"], [
            "areas that are unconfirmed: 1, first 'TWO'", "areas for bad mail and defaults: 1, first 'DEFAULT'",
            "links in one way there, in both ways here: 1, first 3 of ONE, read-only", "points: 1, first 1:10/3.7"]))

    def test_refusals(self):
        """A form that is not known, an address that is none, a file that is missing."""
        self.write("config", "")
        for words, status in ((("other", "1:10/2", "config"), 4), (("hpt", "10/2", "config"), 4), (("hpt", "1:10/2"), 4), (("--aka",), 4),
                              (("hpt", "1:10/2", "missing"), 3), (("--bases", "--aka", "x", "hpt", "1:10/2", "config"), 4),
                              (("--bases", "--peers", "x", "hpt", "1:10/2", "config"), 4), (("--bases=x", "hpt", "1:10/2", "config"), 4)):
            self.assertEqual(fixtures.run("links-from", *words, cwd=self.place).status, status, words)


class ReadOnly(Case):
    """Links that may only read."""

    def test_lines_of_peers(self):
        self.write("hpt.cfg", "EchoArea ONE /x -b msg 1:10/3 -r 1:10/1.7 -r 1:10/4 -w\nEchoArea TWO /y -b msg 1:10/3 1:10/4 -r\n")
        out, faults = self.run_tool("--peers", "peers", "hpt", "1:10/1", "hpt.cfg")
        self.assertEqual(out, ["SYSTEM 1:10/1", "AREA ONE 1:10/3 1:31000/7 1:10/4", "AREA TWO 1:10/3 1:10/4"])
        self.assertEqual(faults, ["links in one way there, in both ways here: 1, first 1:10/4 of ONE, write-only"])
        with open(os.path.join(self.place, "peers"), encoding="ascii") as file:
            lines = file.read().split("\n")
        self.assertEqual(lines, ["POINT 1:31000/7 1:10/1.7", "READONLY ONE 1:10/3 1:31000/7", "READONLY TWO 1:10/4", ""])


if __name__ == "__main__":
    unittest.main()
