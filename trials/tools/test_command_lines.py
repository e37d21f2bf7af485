"""What all tools take: help, values behind `=`, and readers that end."""
import os
import shutil
import subprocess
import tempfile
import unittest

import fixtures

NAMED = ("links-from", "links-seen", "net-page")
OTHERS = ("jam-to-packets", "msg-to-packets")


class CommandLines(unittest.TestCase):
    """Each tool."""

    def setUp(self):
        self.place = tempfile.mkdtemp()
        self.addCleanup(shutil.rmtree, self.place)
        self.links = fixtures.write(os.path.join(self.place, "a.links"), b"SYSTEM 1:10/1\nAREA A\n")
        self.areas = fixtures.write(os.path.join(self.place, "areas.bbs"), b"A ONE 1:10/2\n")
        self.mail = fixtures.write(os.path.join(self.place, "mail.json"), b"")

    def test_help(self):
        """It goes to standard output, and nothing is done."""
        for tool in NAMED + OTHERS:
            for words in (("--help",), ("-h",), ("x", "y", "--help")):
                ended = fixtures.run(tool, *words, cwd=self.place)
                self.assertEqual((ended.status, ended.fault), (0, ""), (tool, words))
                self.assertTrue(ended.out.startswith(tool + " "), tool)

    def test_values(self):
        """A value may be behind the option, or after `=`."""
        one = fixtures.run("links-seen", "--zone", "2", "--least", "3", "one", "--own", "2:5020/1", "json:mail.json", cwd=self.place)
        other = fixtures.run("links-seen", "--zone=2", "--least=3", "other", "--own=2:5020/1", "json:mail.json", cwd=self.place)
        self.assertEqual((one.status, one), (0, other))
        one = fixtures.run("links-from", "--aka", "first", "areas.bbs", "1:10/1", "areas.bbs", cwd=self.place)
        other = fixtures.run("links-from", "--aka=second", "areas.bbs", "1:10/1", "areas.bbs", cwd=self.place)
        self.assertEqual((one.status, other.status), (0, 0))
        self.assertEqual(os.listdir(os.path.join(self.place, "first")), os.listdir(os.path.join(self.place, "second")))
        ended = fixtures.run("net-page", "--title=A=B", "--assume=1:10/9", "page.html", "a.links", cwd=self.place)
        self.assertEqual(ended.status, 0, ended.fault)
        with open(os.path.join(self.place, "page.html"), encoding="utf-8") as file:
            self.assertIn("<h1>A=B</h1>", file.read())
        for words in (("--zone=x", "z", "json:mail.json"), ("--least=", "z", "json:mail.json"), ("--nothing=1", "z", "json:mail.json")):
            self.assertEqual(fixtures.run("links-seen", *words, cwd=self.place).status, 2, words)
        self.assertEqual(fixtures.run("net-page", "--why=x", "p.html", "a.links", cwd=self.place).status, 2)

    def test_closed_pipe(self):
        """A reader that ends is no fault, and all is written."""
        for number, words in enumerate((("links-from", "areas.bbs", "1:10/1", "areas.bbs"), ("links-seen", "seen", "json:mail.json"),
                                        ("links-seen", "--help"), ("net-page", "page.html", "a.links"))):
            reading, writing = os.pipe()
            os.close(reading)
            done = subprocess.run([fixtures.PYTHON, os.path.join(fixtures.TOOLS, words[0]), *words[1:]], cwd=self.place, stdout=writing,
                                  stderr=subprocess.PIPE, check=False)
            os.close(writing)
            self.assertEqual((done.returncode, done.stderr), (0, b""), words)
        self.assertTrue(os.path.isdir(os.path.join(self.place, "seen")))
        self.assertTrue(os.path.exists(os.path.join(self.place, "page.html")))

    def test_no_graphviz(self):
        """The page says how to install it."""
        env = {**os.environ, "PATH": self.place, "ECHONET": fixtures.PROGRAM}
        words = [fixtures.PYTHON, os.path.join(fixtures.TOOLS, "net-page"), "page.html", "a.links"]
        done = subprocess.run(words, cwd=self.place, env=env, capture_output=True, check=False)
        self.assertEqual((done.returncode, done.stderr), (3, b"net-page: cannot use dot: install Graphviz (apt-get install graphviz)\n"))

    def test_seen_links(self):
        """The page of links that were seen says so, with the count and the last day of each."""
        seen = b"SYSTEM 1:10/%d\n; 1:10/%d 312 messages, last 2026-11-30\nAREA SEEN 1:10/%d\nAREA GIVEN 1:10/%d\n"
        files = [fixtures.write(os.path.join(self.place, "%d" % one), seen % (one, 3 - one, 3 - one, 3 - one)) for one in (1, 2)]
        self.assertEqual(fixtures.run("net-page", "page.html", *files, cwd=self.place).status, 0)
        with open(os.path.join(self.place, "page.html"), encoding="utf-8") as file:
            text = file.read()
        self.assertIn("In 1 area the link files are those of links-seen: only links that messages took were judged", text)
        self.assertIn("<li>1:10/1 and 1:10/2: 312 messages, last 2026-11-30</li>", text)
        self.assertEqual(text.count("Links that messages took"), 1)
        self.assertEqual(fixtures.run("net-page", "page.html", "a.links", cwd=self.place).status, 0)
        with open(os.path.join(self.place, "page.html"), encoding="utf-8") as file:
            self.assertNotIn("links-seen", file.read())

    def test_faulty_file(self):
        """It is named, with the line."""
        fixtures.write(os.path.join(self.place, "bad.links"), b"SYSTEM 1:10/2\nAREA A 10/1\n")
        ended = fixtures.run("net-page", "page.html", "a.links", "bad.links", cwd=self.place)
        self.assertEqual(ended.status, 2)
        self.assertIn("bad.links:2:", ended.fault)


if __name__ == "__main__":
    unittest.main()
