"""Tests of links-seen: link files from PATH lines of JAM bases, stored messages, packets and lines of JSON."""
import os
import shutil
import struct
import tempfile
import unittest

import fixtures
import small_net
from fixtures import Mail, files, write

FIRST = Mail("1:10/1 00000001", ("10/1 2 3",))
SECOND = Mail("1:10/1 00000002", ("10/1 2",), "2026-07-04 00:00:00")


def file(system, *areas):
    """A link file with comments: each area is a tag and its links, each an address, a count and a day."""
    lines = ["SYSTEM " + system]
    for tag, *links in areas:
        lines += ["; %s %d messages, last %s" % link for link in links]
        lines.append(" ".join(["AREA", tag] + [link[0] for link in links]))
    return "".join(line + "\n" for line in lines)


class Case(unittest.TestCase):
    """A test in a folder of its own."""

    def setUp(self):
        self.place = tempfile.mkdtemp()
        self.addCleanup(shutil.rmtree, self.place)
        self.runs = 0

    def path(self, *names):
        """A path in the folder."""
        return os.path.join(self.place, *names)

    def jam(self, mails, name="base", tag="TEST"):
        """A JAM base as a source."""
        fixtures.jam_base(self.path(name), mails)
        return "jam:%s:%s" % (tag, self.path(name))

    def msg(self, mails, name="msg", tag="TEST"):
        """A folder of stored messages as a source."""
        os.mkdir(self.path(name))
        for number, mail in enumerate(mails, 2):
            write(self.path(name, "%d.%s" % (number, ("msg", "MSG")[number % 2])), fixtures.stored(mail))
        return "msg:%s:%s" % (tag, self.path(name))

    def packets(self, mails, name="packets", origin=(1, 10, 3), destination=(1, 10, 4)):
        """A folder of packets as a source."""
        os.mkdir(self.path(name))
        for number, mail in enumerate(mails):
            content = fixtures.packet(origin, destination, [mail])
            write(self.path(name, "%d.%s" % (number, ("pkt", "PKT")[number % 2])), content)
        return "packets:" + self.path(name)

    def json(self, mails, name="lines", sender=None):
        """A file of JSON lines as a source."""
        return "json:" + write(self.path(name), b"".join(fixtures.json_line(mail, sender) for mail in mails))

    def run_tool(self, *words, given=b""):
        """Runs links-seen into a new folder."""
        self.runs += 1
        self.folder = self.path("seen%d" % self.runs)
        options = []
        words = list(words)
        while words and words[0] in ("--zone", "--since", "--least"):
            options += [words.pop(0), words.pop(0)]
        return fixtures.run("links-seen", *options, self.folder, *words, given=given)

    def seen(self, *words, fault="", given=b""):
        """The link files that a run makes."""
        ended = self.run_tool(*words, given=given)
        self.assertEqual((ended.status, ended.fault), (0, "".join("links-seen: %s\n" % line for line in fault.splitlines())))
        return files(self.folder)

    def links(self, *words, fault="", given=b""):
        """The links of a run: the area, both addresses, the count and the day. Each is in two files."""
        found = set()
        for name, content in self.seen(*words, fault=fault, given=given).items():
            system, known = "", {}
            for line in content.splitlines():
                first, *rest = line.split(" ", 1)
                if first == "SYSTEM":
                    system = rest[0]
                    self.assertEqual(name, system.replace(":", ".").replace("/", "."))
                elif first == ";":
                    link, count, _, _, day = rest[0].split()
                    known[link] = (int(count), day)
                else:
                    tag, *links = rest[0].split()
                    found.update((tag, system, link) + known.pop(link) for link in links)
                    self.assertEqual(known, {})
        self.assertEqual({(tag, other, one, *more) for tag, one, other, *more in found}, found)
        return {link for link in found if link[1] <= link[2]}


class Sources(Case):
    """Each kind of source, and what its messages say."""

    def test_files(self):
        """The files of a path of three systems and their own system, from each kind of source."""
        day = "2026-07-03"
        wanted = {
            "1.10.1": file("1:10/1", ("TEST", ("1:10/2", 1, day))),
            "1.10.2": file("1:10/2", ("TEST", ("1:10/1", 1, day), ("1:10/3", 1, day))),
            "1.10.3": file("1:10/3", ("TEST", ("1:10/2", 1, day), ("1:10/4", 1, day))),
            "1.10.4": file("1:10/4", ("TEST", ("1:10/3", 1, day)))}
        whole = FIRST._replace(path=("10/1 10/2 10/3",))
        for source in (self.jam([FIRST]), self.msg([FIRST]), self.packets([FIRST]), self.json([whole])):
            self.assertEqual(self.seen("--own", "1:10/4", source), wanted)
        with open(self.path("lines"), "rb") as lines:
            self.assertEqual(self.seen("--own", "1:10/4", "json:-", given=lines.read()), wanted)

    def test_areas(self):
        """Links belong to their areas, and an area has only its own."""
        other = Mail("1:10/1 00000003", ("10/1 5",), tag="OTHER")
        wanted = {("TEST", "1:10/1", "1:10/2", 1, "2026-07-03"), ("TEST", "1:10/2", "1:10/3", 1, "2026-07-03"),
                  ("OTHER", "1:10/1", "1:10/5", 1, "2026-07-03")}
        self.assertEqual(self.links(self.packets([FIRST, other])), wanted)
        self.assertEqual(self.links(self.jam([FIRST], "one", "test"), self.jam([other], "two", "OTHER")), wanted)

    def test_one_id_in_two_areas(self):
        """One id in two areas is two messages."""
        self.assertEqual(len(self.links(self.packets([SECOND, SECOND._replace(tag="OTHER")]))), 2)

    def test_seen_by(self):
        """SEEN-BY entries are no links."""
        mail = SECOND._replace(seen=("10/1 2 3 4", "20/5"))
        for source in (self.jam([mail]), self.msg([mail]), self.packets([mail]), self.json([mail._replace(path=("10/1 10/2",))])):
            self.assertEqual(self.links(source), {("TEST", "1:10/1", "1:10/2", 1, "2026-07-04")})

    def test_wrapped(self):
        """PATH lines wrap. A node alone takes the net before it in its line, and has none at the front of a line."""
        mail = Mail("1:10/1 1", ("10/1 2", "10/3 20/4 5", "6 10/7\t10/8 x 10/9"))
        wanted = {("1:10/1", "1:10/2"), ("1:10/2", "1:10/3"), ("1:10/3", "1:20/4"), ("1:20/4", "1:20/5"), ("1:10/7", "1:20/5"),
                  ("1:10/7", "1:10/8"), ("1:10/8", "1:10/9")}
        for source in (self.jam([mail]), self.msg([mail]), self.packets([mail])):
            found = self.links("--zone", "1", source, fault="net 20 is named in no zone, taken as zone 1")
            self.assertEqual({link[1:3] for link in found}, wanted)

    def test_control_tail(self):
        """Only the control tail counts: a PATH line before a line of the body does not."""
        body = ("\x01PATH: 10/7 8", "> quoted", "SEEN-BY: 10/1 2", "\x01PATH: 10/1 2", "", "\x01Via x")
        mail = Mail("1:10/1 00000001", (), body=body)
        for source in (self.jam([mail]), self.msg([mail]), self.packets([mail])):
            self.assertEqual({link[1:3] for link in self.links(source)}, {("1:10/1", "1:10/2")})

    def test_equal_neighbours(self):
        """A system that wrote itself twice has no link with itself, also not as the own system in another zone."""
        mail = Mail("1:10/1 00000001", ("10/1 1 2 2",))
        self.assertEqual({link[1:3] for link in self.links("--own", "2:10/2", self.jam([mail]))}, {("1:10/1", "2:10/2")})

    def test_numbers(self):
        """A number that no address has breaks the path."""
        mail = Mail("1:10/1 00000001", ("10/1 10/32768 10/2 3",))
        self.assertEqual({link[1:3] for link in self.links(self.jam([mail]), fault="1 entries of PATH are no address, left out")},
                         {("1:10/2", "1:10/3")})

    def test_damage(self):
        """Damaged messages and files are counted, and the others are read."""
        source = self.jam([FIRST, SECOND, FIRST._replace(msgid="1:10/1 00000003")])
        with open(self.path("base.jhr"), "r+b") as headers:
            headers.seek(1024)
            headers.write(b"X")
        links = {("TEST", "1:10/1", "1:10/2", 2, "2026-07-04"), ("TEST", "1:10/2", "1:10/3", 1, "2026-07-03")}
        self.assertEqual(self.links(source, fault="%s: 1 damaged messages" % self.path("base")), links)
        source = self.msg([FIRST])
        write(self.path("msg", "9.msg"), b"short")
        os.mkfifo(self.path("msg", "10.msg"))
        write(self.path("msg", "x1.msg"), fixtures.stored(SECOND))
        fault = "%s: 1 damaged messages\n%s: 1 damaged files" % (self.path("msg"), self.path("msg"))
        self.assertEqual({link[1:4] for link in self.links(source, fault=fault)}, {("1:10/1", "1:10/2", 1), ("1:10/2", "1:10/3", 1)})
        source = self.packets([FIRST])
        write(self.path("packets", "cut.pkt"), fixtures.packet((1, 10, 3), (1, 10, 4), [SECOND, SECOND])[:-30])
        write(self.path("packets", "x.pkt"), b"x" * 60)
        write(self.path("packets", "not.pk"), fixtures.packet((1, 10, 3), (1, 10, 4), [Mail("1:10/1 9", ("10/8 9",))]))
        self.assertEqual(self.links(source, fault="%s: 2 damaged files" % self.path("packets")), links)
        source = self.json([FIRST._replace(path=("10/1 10/2 10/3",))])
        with open(self.path("lines"), "ab") as lines:
            lines.write(b"{}\n[1]\n\xff\n" + fixtures.json_line(SECOND._replace(path=("10/1 10/2",))))
        self.assertEqual(self.links(source, fault="%s: 3 damaged messages" % self.path("lines")), links)

    def test_spoilt_headers(self):
        """CrashMail's spoilt headers are read: each byte over 7F of a number was taken for a signed one."""
        long = FIRST._replace(body=("x" * 150,), subject="s" * 60)
        source = self.jam([long, SECOND])
        with open(self.path("base.jhr"), "r+b") as headers:
            headers.seek(1024)
            content = headers.read(76)
            numbers = [sum((byte - (byte > 127) * 256) << 8 * at for at, byte in enumerate(struct.pack("<I", number))) & 0xffffffff
                       for number in struct.unpack_from("<17I", content, 8)]
            self.assertNotEqual(tuple(numbers), struct.unpack_from("<17I", content, 8))
            headers.seek(1032)
            headers.write(struct.pack("<17I", *numbers))
        self.assertEqual({link[1:4] for link in self.links(source)}, {("1:10/1", "1:10/2", 2), ("1:10/2", "1:10/3", 1)})


class Own(Case):
    """The option --own."""

    def test_last_entry(self):
        """The last entry is linked with the own system. Without PATH nobody is."""
        mails = [SECOND, Mail("1:10/4 00000001", ())]
        self.assertEqual({link[1:4] for link in self.links("--own", "1:10/4", self.jam(mails))},
                         {("1:10/1", "1:10/2", 1), ("1:10/2", "1:10/4", 1)})

    def test_outbound(self):
        """In a packet that the own system sends, it is the last entry itself."""
        self.assertEqual({link[1:3] for link in self.links("--own", "1:10/2", self.packets([SECOND]))}, {("1:10/1", "1:10/2")})

    def test_several(self):
        """It holds for the sources after it."""
        sources = self.jam([SECOND], "a"), self.jam([SECOND], "b"), self.jam([SECOND], "c")
        found = self.links(sources[0], "--own", "1:10/8", sources[1], "--own", "1:10/9", sources[2])
        self.assertEqual({link[1:4] for link in found}, {("1:10/1", "1:10/2", 1), ("1:10/2", "1:10/8", 1), ("1:10/2", "1:10/9", 1)})

    def test_as_written(self):
        """Its address is as it is written, also where a path of another source names it."""
        sources = self.jam([SECOND], "a"), self.jam([SECOND._replace(path=("10/1 2 7",))], "b")
        found = self.links("--own", "5:10/7", sources[0], "--own", "1:10/9", sources[1])
        self.assertEqual({link[1:4] for link in found},
                         {("1:10/1", "1:10/2", 1), ("1:10/2", "5:10/7", 1), ("1:10/9", "5:10/7", 1)})


class Counts(Case):
    """The counts of messages, and the options that use them."""

    def test_copies(self):
        """A message of several sources counts once, with the links that each copy shows."""
        sources = [self.jam([FIRST]), self.msg([SECOND._replace(msgid=FIRST.msgid)]), self.packets([FIRST])]
        wanted = {("1:10/1", "1:10/2", 1, "2026-07-04"), ("1:10/2", "1:10/3", 1, "2026-07-03"), }
        self.assertEqual({link[1:] for link in self.links(*sources)}, wanted)
        self.assertEqual({link[1:] for link in self.links(*reversed(sources))}, wanted)

    def test_own_and_path(self):
        """A link that two sources show in different ways counts a message once."""
        sources = self.jam([SECOND], "a"), self.jam([SECOND._replace(path=("10/1 2 4",))], "b")
        found = self.links("--own", "1:10/4", sources[0], "--own", "1:10/5", sources[1])
        self.assertEqual({link[1:4] for link in found}, {("1:10/1", "1:10/2", 1), ("1:10/2", "1:10/4", 1), ("1:10/4", "1:10/5", 1)})

    def test_without_id(self):
        """Without an id names, date, subject and the lines before the control tail identify a message."""
        plain = Mail(None, ("10/1 2",), body=("Gr\u00fc\u00dfe", ""))
        others = [plain._replace(body=("Gr\u00fc\u00dfe.",)), plain._replace(subject="Ho"), plain._replace(time="2026-07-03 12:34:57")]
        longer = plain._replace(path=("10/1 2 3",), seen=("10/1 2",))
        sources = [self.jam([plain] + others), self.msg([longer]), self.packets([plain] + others),
                   self.json([plain._replace(path=("10/1 10/2",))])]
        found = self.links("--zone", "1", *sources)
        self.assertEqual({link[1:4] for link in found}, {("1:10/1", "1:10/2", 4), ("1:10/2", "1:10/3", 1)})

    def test_charsets(self):
        """A message without an id is the same in JSON, which has other bytes for its letters."""
        bare = Mail(None, ("10/1 10/2",), body=("\x01CHRS: CP866 2", "\u00c5"))
        text = bare._replace(body=("\x01CHRS: CP866 2", "\u041f"))  # The byte 8F in CP437 and in CP866.
        found = self.links("--zone", "1", self.msg([bare]), self.json([text]), fault="net 10 is named in no zone, taken as zone 1")
        self.assertEqual({link[3] for link in found}, {1})

    def test_days(self):
        """The last day of a link, in each order; `unknown` without any that can be read."""
        mails = [FIRST, SECOND, SECOND._replace(msgid="1:10/1 00000003", time="2026-06-30 00:00:00"),
                 Mail("1:10/1 00000004", ("10/2 7",), None)]
        for source in (self.jam(mails), self.msg(mails), self.packets(mails[::-1])):
            self.assertEqual({link[1:] for link in self.links(source)}, {
                ("1:10/1", "1:10/2", 3, "2026-07-04"), ("1:10/2", "1:10/3", 1, "2026-07-03"), ("1:10/2", "1:10/7", 1, "unknown")})

    def test_since(self):
        """Messages before the day, or of no day, are left out."""
        mails = [FIRST, SECOND, Mail("1:10/1 00000004", ("10/2 7",), None)]
        for source in (self.jam(mails), self.msg(mails), self.json([mail._replace(path=("10/1 10/2",)) for mail in mails])):
            self.assertEqual({link[1:] for link in self.links("--since", "2026-07-04", source)}, {("1:10/1", "1:10/2", 1, "2026-07-04")})
            self.assertEqual({link[3] for link in self.links("--since", "2026-07-05", source)}, set())

    def test_least(self):
        """Links that fewer messages took are left out, and systems and areas without a link."""
        mails = [FIRST, SECOND, Mail("1:10/1 00000001", ("10/1 2",), tag="OTHER")]
        self.assertEqual(self.seen("--least", "2", self.packets(mails)), {
            "1.10.1": file("1:10/1", ("TEST", ("1:10/2", 2, "2026-07-04"))),
            "1.10.2": file("1:10/2", ("TEST", ("1:10/1", 2, "2026-07-04")))})


class Zones(Case):
    """The zones of nets."""

    def test_msgid(self):
        """The address of an id names the zone of its net, also with a point, a domain or a name before it."""
        for number, found in enumerate(("2:10/1.5@fidonet 1", "5.area@2:10/7 1", '"2:10/1" 1', "2:10/1@x 12345678")):
            source = self.jam([SECOND._replace(msgid=found)], "base%d" % number)
            self.assertEqual({link[1:3] for link in self.links("--zone", "3", source)}, {("2:10/1", "2:10/2")})

    def test_header(self):
        """The header of a packet names both nets."""
        mail = Mail("x 1", ("10/1 20/2",))
        self.assertEqual({link[1:3] for link in self.links("--zone", "3", self.packets([mail], origin=(4, 20, 2), destination=(5, 10, 1)))},
                         {("4:20/2", "5:10/1")})
        mail = mail._replace(path=("10/1 2",))
        self.assertEqual({link[1:3] for link in self.links(
            "--zone", "3", self.packets([mail], "none", (0, 10, 2), (0, 10, 1)), fault="net 10 is named in no zone, taken as zone 3")},
            {("3:10/1", "3:10/2")})

    def test_sender(self):
        """The sender in JSON names its net."""
        mail = Mail("x 1", ("10/1 10/2",))
        self.assertEqual({link[1:3] for link in self.links("--zone", "3", self.json([mail], sender="4:10/2"))}, {("4:10/1", "4:10/2")})

    def test_two_zones(self):
        """A net that is named in two zones is in that of --zone, else of the first --own, and is listed."""
        mails = [SECOND, Mail("2:10/1 00000001", ("10/1 2",))]
        told = "net 10 is named in zones 1 2, taken as zone %d"
        source = self.jam(mails)
        found = self.links("--zone", "2", "--own", "3:30/1", source, fault=told % 2)
        self.assertEqual({link[1:3] for link in found}, {("2:10/1", "2:10/2"), ("2:10/2", "3:30/1")})
        found = self.links("--own", "4:30/1", source, "--own", "3:30/1", source, fault=told % 4)
        self.assertEqual({link[1:3] for link in found}, {("4:10/1", "4:10/2"), ("4:10/2", "4:30/1"), ("3:30/1", "4:10/2")})

    def test_no_zone(self):
        """A net without any zone has no address."""
        mail = Mail("x 1", ("10/1 2 20/3",))
        self.assertEqual(self.seen(self.jam([mail]), fault="""net 10 is named in no zone, left out: give --zone
net 20 is named in no zone, left out: give --zone"""), {})


class Refusals(Case):
    """Statuses other than 0."""

    def test_sources(self):
        """A source that cannot be opened is status 3, and nothing is written."""
        good = self.jam([FIRST])
        os.remove(self.jam([FIRST], "part").split(":")[2] + ".jdt")
        for word in ("jam:T:%s", "msg:T:%s", "packets:%s", "json:%s"):
            word = word % self.path("missing")
            ended = self.run_tool(good, word)
            self.assertEqual((ended.status, ended.out, ended.fault),
                             (3, "", "links-seen: cannot use %s\n" % self.path("missing")))
            self.assertFalse(os.path.exists(self.folder))
        self.assertEqual(self.run_tool("jam:T:" + self.path("part"), good).status, 3)
        self.assertEqual(self.run_tool("msg:T:" + self.path("base.jhr"), good).status, 3)

    def test_folder(self):
        """The folder is new or empty."""
        good = self.jam([FIRST])
        os.mkdir(self.path("full"))
        write(self.path("full", "x"), b"")
        for folder in (self.path("full"), self.path("full", "x")):
            ended = fixtures.run("links-seen", folder, good)
            self.assertEqual((ended.status, ended.fault), (2, "links-seen: %s is not an empty folder\n" % folder))
        self.assertEqual(os.listdir(self.path("full")), ["x"])
        os.mkdir(self.path("empty"))
        self.assertEqual(fixtures.run("links-seen", self.path("empty"), good).status, 0)
        self.assertEqual(len(os.listdir(self.path("empty"))), 3)

    def test_arguments(self):
        """A bad argument is status 2, and nothing is written."""
        good = self.jam([FIRST])
        folder = self.path("never")
        for words in ((), (folder,), (folder, "jam:T"), (folder, "jam::x"), (folder, "x:T:y"), (folder, "packets:"), (folder, good, "--own", "1:1/1"),
                      (folder, "--own", "1:1", good), (folder, "--own", "1:1/1.1", good), (folder, "--own", "0:1/1", good),
                      ("--zone", "0", folder, good), ("--zone", "32768", folder, good), ("--since", "2026-02-30", folder, good),
                      ("--since", "20260203", folder, good), ("--least", "0", folder, good), ("--least", "x", folder, good),
                      ("--other", folder, good), (folder, "jam:T\u00e4G:x"), (folder, good, "--least")):
            ended = fixtures.run("links-seen", *words)
            self.assertEqual((words, ended.status, ended.out), (words, 2, ""))
            self.assertFalse(os.path.exists(folder))


class Program(Case):
    """Bases and packets that the program makes, and link files that it reads."""

    LINKS = {"1:10/1": "SYSTEM 1:10/1\nAREA TEST 1:10/2\n", "1:10/2": "SYSTEM 1:10/2\nAREA TEST 1:10/1 2:20/3 1:10/4\n",
             "2:20/3": "SYSTEM 2:20/3\nAREA TEST 1:10/2 1:10/4\n", "1:10/4": "SYSTEM 1:10/4\nAREA TEST 1:10/2 2:20/3 1:10/5\n",
             "1:10/5": "SYSTEM 1:10/5\nAREA TEST 1:10/4\n"}

    def test_exports(self):
        """A tree with a triangle: each form of the messages of 1:10/5 shows the ways to it, and all bases show all links."""
        net = small_net.Net(self.path("net"), self.LINKS)
        for system in ("1:10/1", "2:20/3", "1:10/5"):
            net.post(system, "TEST")
        net.settle()
        day = "2026-07-03"
        wanted = {("TEST", "1:10/1", "1:10/2", 1, day), ("TEST", "1:10/2", "1:10/4", 1, day), ("TEST", "1:10/4", "2:20/3", 1, day),
                  ("TEST", "1:10/4", "1:10/5", 2, day)}
        sources = net.sources("1:10/5", "TEST")
        for source in sources:
            self.assertEqual(self.links("--own", "1:10/5", source), wanted)
        self.assertEqual(self.links("--own", "1:10/5", *sources), wanted)
        words = []
        for system in ("1:10/1", "1:10/2", "2:20/3", "1:10/4"):
            words += ["--own", system, net.sources(system, "TEST")[0]]
        found = self.links(*words, "--own", "1:10/5", sources[0])
        self.assertEqual({link[1:3] for link in found}, {("1:10/1", "1:10/2"), ("1:10/2", "2:20/3"), ("1:10/2", "1:10/4"),
                                                         ("1:10/4", "2:20/3"), ("1:10/4", "1:10/5")})
        paths = [os.path.join(self.folder, name) for name in os.listdir(self.folder)]
        self.assertEqual(fixtures.echonet("check", "test", *paths).out, "yes TEST 5 systems 5 links\n")
        self.assertEqual(fixtures.echonet("links", *paths).status, 0)


if __name__ == "__main__":
    unittest.main()
