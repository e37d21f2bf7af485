"""Tests of net-page: its pages show what the program prints, run no code of link files, and work in a browser."""
import base64
import glob
import hashlib
import html.parser
import os
import random
import re
import shutil
import tempfile
import unittest

import browser
import fixtures
from lib import making, topologies
from fixtures import write

NETS = os.path.join(fixtures.TOP, "examples", "nets")
COSTS = {"apart": "mail is lost", "chain": "nothing", "loop": "mail is sent twice", "no-such-area": "nothing", "one-sided": "mail is lost",
         "same-net-node": "mail may be lost", "self-link": "the file is wrong", "two-files": "the file is wrong", "unknown": "mail may be lost"}


class Page(html.parser.HTMLParser):
    """The elements of a page: each its name, its attributes and its text."""

    def __init__(self, path):
        super().__init__()
        self.elements, self.open = [], []
        with open(path, encoding="utf-8") as file:
            self.source = file.read()
        self.feed(self.source)

    def handle_starttag(self, tag, attrs):
        self.elements.append([tag, dict(attrs), ""])
        if tag not in ("meta", "path", "rect"):
            self.open.append(self.elements[-1])

    def handle_startendtag(self, tag, attrs):
        self.elements.append([tag, dict(attrs), ""])

    def handle_endtag(self, tag):
        while self.open and self.open.pop()[0] != tag:
            pass

    def handle_data(self, data):
        for element in self.open:
            element[2] += data

    def all(self, tag, name=None, value=None):
        """The elements of a name, with an attribute."""
        return [element for element in self.elements if element[0] == tag and (name is None or element[1].get(name) == value)]


@unittest.skipIf(shutil.which("dot") is None, "there is no Graphviz")
class Case(unittest.TestCase):
    """A test in a folder of its own."""

    def setUp(self):
        self.place = tempfile.mkdtemp()
        self.addCleanup(shutil.rmtree, self.place)
        self.page = os.path.join(self.place, "page.html")

    def net(self, **texts):
        """Link files by their names."""
        return [write(os.path.join(self.place, name + ".links"), text.encode("utf-8", "surrogateescape")) for name, text in texts.items()]

    def make(self, *words, cwd=None):
        """Makes a page, and reads it."""
        options = [word for word in words if word.startswith("--")]
        files = [word for word in words if not word.startswith("--")]
        ended = fixtures.run("net-page", "--why", "--title", "A & B", *options, self.page, *files, cwd=cwd)
        self.assertEqual((ended.status, ended.out, ended.fault), (0, "", ""))
        return Page(self.page)


def example(name):
    """The folder and the files of a net of the examples."""
    folder = os.path.join(NETS, name)
    return folder, sorted(os.path.basename(path) for path in glob.glob(folder + "/*.links"))


class Contents(Case):
    """What the pages of examples/nets show."""

    def test_commands(self):
        """The lines of check and why, and the words of the table."""
        for name, cost in COSTS.items():
            folder, files = example(name)
            page = self.make(*files, cwd=folder)
            lines = fixtures.echonet("check", "--all", "--more", *files, cwd=folder).out.splitlines()[:-1]
            tag = lines[0].split()[1]
            wanted = ["\n".join(lines)]
            if lines[0].startswith("no"):
                wanted = [fixtures.echonet("why", tag, *files, cwd=folder).out.rstrip("\n")] + wanted
                words = "no: " + lines[0].split(" ", 2)[2] + (", and %d more" % (len(lines) - 1) if len(lines) > 1 else "")
            else:
                words = "yes"
            self.assertEqual([element[2] for element in page.all("pre")], wanted)
            cells = {element[1]["data-label"]: element[2] for element in page.all("td")}
            self.assertEqual((cells["Verdict"][2:], cells["Cost"]), (words, cost))
            if words == "yes":
                self.assertEqual(lines[0].split()[2::2], [cells["Systems"], cells["Links"]])

    def test_pictures(self):
        """The systems, links and marks of a picture are those of the command."""
        kinds = {"color=red": "bad", "color=red, penwidth=3": "loop", "style=dotted": "outside", "color=red, style=dashed, dir=forward": "half",
                 "color=red, style=dashed, dir=back": "half"}
        for name in COSTS:
            folder, files = example(name)
            page = self.make(*files, cwd=folder)
            tag = page.all("h2")[0][2]
            dot = fixtures.echonet("picture", tag, *files, cwd=folder).out
            systems = dict(re.findall(r'^"([0-9:/]+)"(?: \[(.*)\])?;$', dot, re.M))
            links = re.findall(r'^"([0-9:/]+)" -- "([0-9:/]+)"(?: \[(.*)\])?;$', dot, re.M)
            groups = [element for element in page.all("g")]
            self.assertEqual({element[2].split(" ")[0].strip(): element[1]["class"] for element in groups},
                             {system: kinds.get(marks, "system") for system, marks in systems.items()})
            paths = [element[1]["class"] for element in page.all("path") if "id" in element[1]]
            self.assertEqual(sorted(paths), sorted(kinds.get(marks, "link") for _, _, marks in links))

    def test_places(self):
        """Each fault has the lines of the files that cause it."""
        files = self.net(a="; a note\nSYSTEM 1:10/1\n\nAREA T 1:10/2 1:10/9 1:10/3\n", b="SYSTEM 1:10/2\nNAME Beta\nAREA T\n",
                         c="SYSTEM 1:10/3\nAREA T 1:10/1\n", d="SYSTEM 1:10/4\nAREA OTHER 1:10/5\nAREA T 1:10/5\n", e="SYSTEM 1:10/5\nAREA OTHER 1:10/4\n")
        page = self.make(*files)
        section = next(element[2] for element in page.all("section") if element[1]["id"] == "a0")
        place = self.place + "/"
        for words in ("V4 mail may be lost: 1:10/1 lists 1:10/9, and no link file of 1:10/9 has the area.%sa.links:4: AREA T 1:10/2 1:10/9 1:10/3"
                      "1:10/9 has no file here." % place,
                      "V4 mail may be lost: 1:10/4 lists 1:10/5, and no link file of 1:10/5 has the area.%sd.links:3: AREA T 1:10/5"
                      "%se.links:1: SYSTEM 1:10/5 has no line for the area" % (place, place),
                      "V5 mail is lost: 1:10/1 lists 1:10/2, and 1:10/2 does not list 1:10/1.%sa.links:4: AREA T 1:10/2 1:10/9 1:10/3"
                      "%sb.links:3: AREA T" % (place, place)):
            self.assertIn(words, section)
        self.assertEqual([element[2] for element in page.all("h2")], ["T", "OTHER"])

    def test_loop_behind(self):
        """A loop behind a link on one side has its sentence, its marks, and its own picture and steps."""
        files = self.net(a="SYSTEM 1:10/1\nAREA T 1:10/2 1:10/4\n", b="SYSTEM 1:10/2\nAREA T 1:10/1 1:10/3\n", c="SYSTEM 1:10/3\nAREA T 1:10/2 1:10/4\n",
                         d="SYSTEM 1:10/4\nAREA T 1:10/3 1:10/1\n", e="SYSTEM 1:10/5\nAREA T 1:10/1\n")
        page = self.make(*files)
        area, loop = page.all("section")
        words = "The links form a loop: 1:10/1, 1:10/2, 1:10/3, 1:10/4. 1:10/1 and 1:10/3 of it are not linked."
        self.assertIn("V5 mail is lost: 1:10/5 lists 1:10/1, and 1:10/1 does not list 1:10/5.", area[2])
        self.assertIn("V8 mail is sent twice: " + words, area[2])
        self.assertIn(words, loop[2])
        for section in (area, loop):
            marked = [path for path in page.all("path") if "loop" in path[1].get("class", "").split() and path[1].get("id", "").startswith(section[1]["id"] + "e")]
            self.assertEqual(len(marked), 4)
        harm = [element[2] for element in page.all("p", "class", "harm")]
        self.assertEqual(len(harm), 2)
        self.assertRegex(harm[1], r"^1:10/\d is sent the message 2 times\.$")

    def test_steps(self):
        """The steps of the loop, in words that follow from its files."""
        folder, files = example("loop")
        page = self.make(*files, cwd=folder)
        steps = [element[2] for element in page.all("li") if "data-packets" in element[1]]
        self.assertEqual(steps, [
            "1:10/2 posts a message.", "1:10/2 scans. It makes packet 0 for 1:10/1, packet 1 for 1:10/3.",
            "Packet 0 arrives at 1:10/1, which files the message.", "Packet 1 arrives at 1:10/3, which files the message.",
            "1:10/1 scans. It makes packet 2 for 1:10/4.", "1:10/3 scans. It makes packet 3 for 1:10/4."])
        self.assertEqual([element[2] for element in page.all("p", "class", "harm")], ["1:10/4 is sent the message 2 times."])

    def test_harm(self):
        """On random nets the steps make as many packets for the harmed system as the harm says."""
        tried = 0
        for seed in range(40):
            net = topologies.net(random.Random(seed))
            files = [write(os.path.join(self.place, "%d.links" % at), making.link_file(system, areas))
                     for at, (system, _, areas) in enumerate(net)]
            page = self.make(*files)
            for section in page.all("section"):
                found = re.search(r"; (\S+) is sent \S+ \S+ (\d+) times", section[2])
                if found:
                    tried += 1
                    steps = section[2].split("How it goes wrong")[1].split("As echonet why prints it")[0]
                    self.assertEqual(len(re.findall(r"packet \d+ for %s\b" % found[1], steps)), int(found[2]), seed)
        self.assertGreater(tried, 2)

    def test_order(self):
        """Areas are sorted by harm."""
        files = self.net(a="SYSTEM 1:10/1\nAREA GOOD 1:10/2\nAREA LOOP 1:10/2 1:10/4\nAREA SELF 1:10/1 1:10/2\nAREA SIDE 1:10/2\nAREA TWIN 1:10/2\n",
                         b="SYSTEM 1:10/2\nAREA GOOD 1:10/1\nAREA LOOP 1:10/1 1:10/3\nAREA SELF 1:10/1\nAREA SIDE\nAREA TWIN 1:10/1 2:10/1\n",
                         c="SYSTEM 1:10/3\nAREA LOOP 1:10/2 1:10/4\n", d="SYSTEM 1:10/4\nAREA LOOP 1:10/1 1:10/3\n",
                         e="SYSTEM 2:10/1\nAREA TWIN 1:10/2\n")
        page = self.make(*files)
        self.assertEqual([element[2] for element in page.all("th", "scope", "row")], ["SIDE", "TWIN", "LOOP", "SELF", "GOOD"])


    @unittest.skipIf("--assume-missing" not in fixtures.echonet("check", "--help").out, "the program has no --assume-missing")
    def test_assumed(self):
        """Assumed systems are drawn, and what lies behind them is said to be unseen."""
        files = self.net(a="SYSTEM 1:10/1\nAREA T 1:10/2 1:10/3\nAREA U 1:10/2\n")
        page = self.make("--assume-missing", *files)
        sections = {element[1]["id"]: element[2] for element in page.all("section")}
        self.assertIn("Nothing was seen behind these systems, which have no file here: 1:10/2, 1:10/3.", sections["a0"])
        self.assertIn("1:10/2 has no file here. What it exchanges with others was not seen.", sections["a1"])
        self.assertEqual(sorted(element[1]["class"] for element in page.all("g")), ["assumed"] * 3 + ["system"] * 2)
        self.assertEqual([element[1]["class"] for element in page.all("path") if "id" in element[1]], ["link"] * 3)


class Safety(Case):
    """Texts of link files are texts."""

    HOSTILE = "<script>document.title=1</script>"

    def test_texts(self):
        """Names, tags and paths with marks of HTML stay texts. The page has one script and one style, and loads nothing."""
        folder = os.path.join(self.place, "<img src=x onerror=alert(1)>\n\u202e")
        os.mkdir(folder)
        tag = "<B>&AMP;\"'\\</SECTION>"
        paths = [write(os.path.join(folder, "a"), ("SYSTEM 1:10/1\nNAME %s\nAREA %s 1:10/2 1:10/9\n" % (self.HOSTILE, tag)).encode()),
                 write(os.path.join(folder, "b"), b"SYSTEM 1:10/2\nNAME \"><img src=x onerror=1>\xff\nAREA %s 1:10/1\n" % tag.encode())]
        page = self.make(*paths)
        for name in ("script", "style"):
            (_, _, text), = page.all(name)
            digest = "'sha256-%s'" % base64.b64encode(hashlib.sha256(text.encode()).digest()).decode()
            self.assertIn(digest, page.all("meta", "http-equiv", "Content-Security-Policy")[0][1]["content"])
        self.assertEqual(page.all("img") + page.all("b"), [])
        self.assertEqual(page.all("h2")[0][2], tag)
        self.assertIn(self.HOSTILE, "".join(element[2] for element in page.all("li")))
        self.assertIn("\\xff", "".join(element[2] for element in page.all("li")))
        self.assertNotIn("\u202e", page.source)
        for _, attributes, _ in page.elements:
            self.assertFalse([name for name in attributes if name.startswith("on") or name in ("src", "style")])
            self.assertTrue(attributes.get("href", "#").startswith("#"))

    def test_refusals(self):
        """What check refuses is reported, and no page is written."""
        bad = self.net(bad="SYSTEM 10/1\n")[0]
        ended = fixtures.run("net-page", self.page, bad)
        wanted = ["net-page: echonet: L2 BadAddress line 1", "%s:1: L2 BadAddress '10/1'" % bad]
        wanted += ["echonet: note: %s:1: bad address '10/1', expected zone:net/node" % bad]
        self.assertEqual((ended.status, ended.fault.splitlines()), (2, wanted))
        self.assertEqual(fixtures.run("net-page", self.page, os.path.join(self.place, "missing")).status, 3)
        for words in ((), (self.page,), ("--other", self.page, bad), ("--title",)):
            self.assertEqual(fixtures.run("net-page", *words).status, 2)
        self.assertFalse(os.path.exists(self.page))


@unittest.skipIf(browser.NAME is None or shutil.which("dot") is None, "there is no Chromium or no Graphviz")
class InBrowser(Case):
    """The pages in a headless browser."""

    @classmethod
    def setUpClass(cls):
        cls.browser = browser.Browser()
        cls.addClassCleanup(cls.browser.close)

    def setUp(self):
        super().setUp()
        self.browser.media()
        self.browser.size(1000, 1400)
        self.browser.send("Emulation.setScriptExecutionDisabled", value=False)

    def show(self, name):
        """Opens the page of a net of the examples."""
        folder, files = example(name)
        self.make(*files, cwd=folder)
        self.browser.open(self.page)

    def classes(self, name):
        """The addresses of systems, and the ids of links, that have a class."""
        return self.browser.value("[...document.querySelectorAll('figure .%s')].map(e => e.tagName === 'g' ? e.textContent : e.id)" % name)

    def test_steps(self):
        """Keys and clicks go through the steps. The picture shows who acts, who has the message, and which packet moves."""
        self.show("loop")
        value = self.browser.value
        self.assertEqual(value("document.querySelector('[role=status]').textContent"), "Before the first step")
        self.browser.click("button:nth-of-type(2)")
        self.assertEqual((self.classes("acts"), self.classes("has"), self.classes("moves")), (["1:10/2"], ["1:10/2"], []))
        self.browser.key("ArrowRight")
        self.assertEqual(value("document.querySelector('[role=status]').textContent"), "Step 2 of 6")
        self.assertEqual((self.classes("acts"), sorted(self.classes("moves"))), (["1:10/2"], ["a0e0", "a0e3"]))
        self.assertEqual(value("document.querySelectorAll('.packet').length"), 2)
        self.browser.key("ArrowRight")
        self.assertEqual((self.classes("acts"), sorted(self.classes("has")), self.classes("moves")), (["1:10/1"], ["1:10/1", "1:10/2"], ["a0e0"]))
        self.assertEqual(value("document.querySelector('[aria-current]').textContent"), "Packet 0 arrives at 1:10/1, which files the message.")
        # The packet comes to rest at its destination.
        self.browser.send("Runtime.evaluate", expression="new Promise(done => setTimeout(done, 900))", awaitPromise=True)
        near = "(() => { const d = document.querySelector('.packet').getBoundingClientRect(), b = document.querySelector('.acts').getBoundingClientRect();" \
               "return Math.hypot(d.x + d.width / 2 - b.x - b.width / 2, d.y + d.height / 2 - b.y - b.height / 2) })()"
        self.assertLess(value(near), 60)
        for _ in range(5):
            self.browser.key("ArrowRight")
        self.assertEqual(value("document.querySelector('[role=status]').textContent"), "Step 6 of 6")
        self.browser.click("button:nth-of-type(1)")
        self.assertEqual(value("document.querySelector('[role=status]').textContent"), "Step 5 of 6")

    def test_dom(self):
        """The browser's document has what the commands print."""
        for name in ("apart", "one-sided", "unknown", "chain"):
            folder, files = example(name)
            self.show(name)
            lines = fixtures.echonet("check", "--all", "--more", *files, cwd=folder).out.splitlines()[:-1]
            self.assertIn("\n".join(lines), self.browser.value("[...document.querySelectorAll('pre')].map(e => e.textContent)"))
            self.assertEqual(self.browser.value("document.querySelectorAll('figure svg g').length"), len({
                word for line in fixtures.echonet("picture", "TEST", *files, cwd=folder).out.splitlines() for word in re.findall(r'"(\d+:\d+/\d+)"', line)}))
            self.assertEqual([event for event in self.browser.events if event["method"] in ("Log.entryAdded", "Runtime.exceptionThrown")], [])

    def test_no_code_runs(self):
        """A name, a tag or a path with a script does not run it, even if it were not escaped."""
        hostile = "<script>document.title=1</script>"
        tag = "<IMG/SRC=X/ONERROR=DOCUMENT.TITLE=1>"
        paths = self.net(**{"<svg onload=document.title=1>": "SYSTEM 1:10/1\nNAME %s\nAREA %s 1:10/2\n" % (hostile, tag), "b": "SYSTEM 1:10/2\nAREA %s\n" % tag})
        self.make(*paths)
        self.browser.open(self.page)
        self.assertEqual(self.browser.value("document.title"), "A & B")
        self.assertEqual(self.browser.value("document.querySelectorAll('script, img').length"), 1)
        with open(self.page, encoding="utf-8") as file:
            text = file.read()
        write(self.page, text.replace("<main>", "<main>%s<img src=x onerror='document.title=1'>" % hostile).encode())
        self.browser.open(self.page)
        self.assertEqual(self.browser.value("document.title"), "A & B")

    def test_without_scripts(self):
        """Without JavaScript the steps are a list, and there are no buttons."""
        self.browser.send("Emulation.setScriptExecutionDisabled", value=True)
        self.show("loop")
        tree = [node for node in self.browser.send("Accessibility.getFullAXTree")["nodes"] if not node.get("ignored")]
        roles = [node["role"]["value"] for node in tree]
        self.assertNotIn("button", roles)
        names = [node.get("name", {}).get("value", "") for node in tree]
        self.assertIn("Packet 0 arrives at 1:10/1, which files the message.", names)

    def test_reader(self):
        """A screen reader finds the table with its heads, the pictures with their names, and the buttons."""
        self.show("loop")
        tree = [(node["role"]["value"], node.get("name", {}).get("value", "")) for node in self.browser.send("Accessibility.getFullAXTree")["nodes"]
                if not node.get("ignored")]
        for wanted in (("heading", "A & B"), ("table", "All areas, the worst first"), ("columnheader", "Cost"), ("rowheader", "TEST"),
                       ("image", "TEST: 4 systems, 5 links. Numbers at links are packets"), ("button", "Next"), ("heading", "How it goes wrong")):
            self.assertIn(wanted, [(role.replace("img", "image"), name) for role, name in tree])
        self.assertEqual(self.browser.value("document.documentElement.lang"), "en")

    def test_telephone(self):
        """On a narrow window nothing lies outside, and the buttons are large enough for a finger."""
        self.browser.size(360, 740)
        for name in ("loop", "chain"):
            self.show(name)
            self.assertLessEqual(self.browser.value("document.documentElement.scrollWidth"), 360)
        self.show("loop")
        self.assertGreaterEqual(self.browser.value("document.querySelector('button').getBoundingClientRect().height"), 44)

    def test_dark_and_printed(self):
        """In dark mode the background is dark and texts have contrast; in print it is white, and the buttons are gone."""
        self.show("loop")
        light = "(() => { const m = c => c.match(/\\d+/g).slice(0, 3).map(v => (v /= 255) <= 0.04045 ? v / 12.92 : ((v + 0.055) / 1.055) ** 2.4);" \
                "const l = c => { const [r, g, b] = m(c); return 0.2126 * r + 0.7152 * g + 0.0722 * b; };" \
                "const paper = l(getComputedStyle(document.body).backgroundColor);" \
                "return [paper].concat([...document.querySelectorAll('h1, td, .place, a[href], .cost, .harm, figcaption')].map(e => {" \
                "const ink = l(getComputedStyle(e).color); return (Math.max(ink, paper) + 0.05) / (Math.min(ink, paper) + 0.05) })) })()"
        for scheme in ("light", "dark"):
            self.browser.media(scheme=scheme)
            paper, *contrasts = self.browser.value(light)
            self.assertEqual(paper < 0.2, scheme == "dark")
            self.assertGreaterEqual(min(contrasts), 4.5)
        self.browser.media("print", "dark")
        self.assertGreater(self.browser.value(light)[0], 0.9)
        self.assertEqual(self.browser.value("getComputedStyle(document.querySelector('.buttons')).display"), "none")
        self.assertGreater(len(self.browser.send("Page.printToPDF")["data"]), 1000)


if __name__ == "__main__":
    unittest.main()
