"""Repairs random nets from any state, by rounds of `list --ids`, `resend` and `toss`, and looks at what each base has then.

A net has 3 to 12 systems and one area: a tree, or a tree of polygons. Before the repair the systems post, scan, toss and
purge. Packets are lost, link files change, bases are lost or restored to older copies, and serials are given twice. Some
links stay in one file only. In a round each system sends each of its links what that lacks: by its list of now or of
an earlier time, or all. Commands are killed at any time, packets of a round are lost, and scans go on. A round without
a loss and a kill is whole.

Once a whole round files nothing, each system has just the messages that a walk leads to it: over links that are in both
files, from a system that has the message whole, past none that has only its stub. Each is there once, with a content
that a base on the walk had. The number of whole rounds is at most one more than the links of the longest of the shortest walks.
Links in one file only show as `notlinked`, and nothing else goes wrong.

Arguments: how many nets (200), how many at a time (1), the first number (0). `--spoil` before these uses lists from
before a base was lost. Then some nets have to differ. SEED makes other choices.
"""
import multiprocessing
import os
import random
import re
import subprocess
import sys
import tempfile

from lib.contents import PROGRAM, write
from lib.topologies import tree_of_polygons

MOMENT = "2026-07-03T12:34:56"
COUNTS = ("runs", "rounds", "killed", "lost", "filed", "stubs", "behind a stub", "one-sided", "lists", "differences")
STUB = "stub"


class Net:
    """The files of a net, and what is known of them."""

    def __init__(self, number, folder, spoil):
        self.chance = random.Random("%s %d" % (os.environ.get("SEED", ""), number))
        self.folder, self.spoil, self.counts = folder, spoil, dict.fromkeys(COUNTS, 0)
        self.systems = list(range(1, self.chance.randint(3, 12) + 1))
        if self.chance.random() < 0.5:
            self.pairs = {p for x in self.systems[1:] for y in [self.chance.randrange(1, x)] for p in ((x, y), (y, x))}
        else:
            self.pairs = tree_of_polygons(self.chance, self.systems)
        self.packets, self.copies, self.lists, self.lives = [], [], [], dict.fromkeys(self.systems, 0)
        self.serial, self.moved, self.wrong, self.longest = 0, 0, [], 0
        for x in self.systems:
            os.makedirs(self.at(x, "out"))
            if self.chance.random() < 0.5:
                os.mkdir(self.at(x, "base"))

    def at(self, x, *names):
        return os.path.join(self.folder, str(x), *names)

    def run(self, *words, given=b"", kill=False):
        """The output of a command. A killed one has none."""
        self.counts["runs"] += 1
        with subprocess.Popen([PROGRAM, *words], cwd=self.folder, stdin=subprocess.PIPE, stdout=subprocess.PIPE,
                              stderr=subprocess.PIPE) as run:
            try:
                out, err = run.communicate(given, timeout=self.chance.random() ** 2 * 0.02 if kill else 60)
            except subprocess.TimeoutExpired:
                run.kill()
                run.communicate()
                self.counts["killed"] += 1
                return None
        if run.returncode != 0 or err:
            self.wrong.append("%s: %d %r" % (" ".join(words), run.returncode, err))
        return out.decode("latin-1")

    def link(self, pairs):
        """Writes the link files with these links."""
        for x in self.systems:
            links = "".join(" 1:10/%d" % y for y in self.systems if (x, y) in pairs)
            write(self.at(x, "links"), ("SYSTEM 1:10/%d\nAREA TEST%s\nAREA OTHER%s\n" % (x, links, links)).encode())

    def post(self, x):
        """A posting, sometimes with a serial that was given before."""
        again = self.serial and self.chance.random() < 0.1
        serial = self.chance.randint(1, self.serial) if again else self.serial + 1
        self.serial = max(self.serial, serial)
        area = "OTHER" if self.chance.random() < 0.1 else "TEST"
        words = ("post", "--area", area, "--to", "All", "--from", "Ann", "--subject", "Hi", "--serial", "%08x" % serial,
                 "--at", MOMENT, self.at(x, "links"), self.at(x, "base"))
        run = subprocess.run([PROGRAM, *words], input=b"text %d\n" % self.chance.randrange(10**9), capture_output=True)
        if run.returncode and run.stderr != b"echonet: B4 KnownSerial\n":
            self.wrong.append("post: %r" % run.stderr)

    def scan(self, x, kill=False):
        """A scan. A packet that has its name is whole, also after a kill."""
        self.run("scan", "--at", MOMENT, self.at(x, "links"), self.at(x, "base"), self.at(x, "out"), kill=kill)
        for name in sorted(os.listdir(self.at(x, "out"))):
            path = self.at(x, "out", name)
            if name.endswith(".pkt"):
                self.moved += 1
                moved = os.path.join(self.folder, "%d.pkt" % self.moved)
                os.rename(path, moved)
                self.packets.append((int(name.split(".")[2]), moved))

    def toss(self, y, path, kill=False):
        """The counts of a toss, or None."""
        out = self.run("toss", self.at(y, "links"), self.at(y, "base"), path, kill=kill)
        found = re.fullmatch(r"filed (\d+) known (\d+) notecho 0 badtag 0 noarea 0 notlinked (\d+)\n", out or "")
        if out is not None and not found:
            self.wrong.append("toss: %r" % out)
        return tuple(map(int, found.groups())) if found else None

    def lose(self, x):
        """The base is lost, or an older copy of it comes back."""
        older = [path for y, path in self.copies if y == x]
        self.lives[x] += 1
        place = self.at(x, "base")
        is_folder = os.path.isdir(place)
        subprocess.run(["rm", "-rf", place], check=True)
        if older and self.chance.random() < 0.5:
            subprocess.run(["cp", "-r", self.chance.choice(older), place], check=True)
        elif is_folder:
            os.mkdir(place)

    def disturb(self):
        """Something happens before the repair."""
        x = self.chance.choice(self.systems)
        what = self.chance.choices(("post", "scan", "toss", "purge", "copy", "lose", "link", "list"), (8, 8, 12, 1, 2, 1, 1, 2))[0]
        if what == "post":
            self.post(x)
        elif what == "scan":
            self.scan(x, self.chance.random() < 0.1)
        elif what == "toss" and self.packets:
            self.toss(*self.packets.pop(self.chance.randrange(len(self.packets))))
        elif what == "purge" and self.chance.random() < 0.5:
            self.run("purge", self.at(x, "links"), self.at(x, "base"))
        elif what == "copy" and os.path.exists(self.at(x, "base")):
            self.copies.append((x, self.at(x, "copy.%d" % len(self.copies))))
            subprocess.run(["cp", "-r", self.at(x, "base"), self.copies[-1][1]], check=True)
        elif what == "lose":
            self.lose(x)
        elif what == "link":
            self.link({pair for pair in self.pairs if self.chance.random() < 0.8})
        elif what == "list":
            self.list(x)

    def list(self, y):
        """The list of a system, which is kept."""
        if os.path.exists(self.at(y, "base")):
            self.counts["lists"] += 1
            self.lists.append((y, self.lives[y], self.run("list", "--ids", "--area", "TEST", self.at(y, "base"))))

    def base(self, x):
        """What a system has: the content of each message of the area, or that it is a stub."""
        if not os.path.exists(self.at(x, "base")):
            return {}
        found, text = {}, self.run("list", "--area", "TEST", self.at(x, "base"))
        for part in re.split(r"^message ", text, flags=re.M)[1:]:
            lines = [line[5:] for line in part.split("\n") if line.startswith("line ")]
            key = lines[0]
            if key in found:
                self.wrong.append("%d has %s twice" % (x, key))
            found[key] = STUB if len(lines) == 1 else "\n".join(lines)
        return found

    def send(self, x, y):
        """The packet of a round, or None if nothing is to be sent."""
        lists = [text for z, life, text in self.lists if z == y and (self.spoil or life == self.lives[y])]
        words, given = ("--all",), b""
        if self.chance.random() < 0.4:
            self.list(y)
            lists = lists[:1] if self.spoil else [t for z, life, t in self.lists if z == y and life == self.lives[y]]
        if lists and self.chance.random() < 0.8:
            words, given = ("--has", "-"), self.chance.choice(lists).encode("latin-1")
        out = None
        while out is None:
            self.resent(x, y, remove=True)
            out = self.run("resend", *words, "--area", "TEST", "--to", "1:10/%d" % y, "--at", MOMENT, self.at(x, "links"),
                           self.at(x, "base"), self.at(x, "out"), given=given, kill=self.chance.random() < 0.05)
        if out.startswith("packet "):
            moved = os.path.join(self.folder, "round.pkt")
            os.replace(self.resent(x, y), moved)
            return moved
        if out != "nothing for 1:10/%d\n" % y:
            self.wrong.append("resend: %r" % out)
        return None

    def resent(self, x, y, remove=False):
        """The packet that a repair left, or none once those of stopped commands are removed."""
        names = [name for name in os.listdir(self.at(x, "out")) if re.fullmatch(r"1\.10\.%d\.r0(-\d+)?\.pkt" % y, name)]
        if remove:
            for name in names:
                os.remove(self.at(x, "out", name))
            return None
        return self.at(x, "out", *names)

    def round(self):
        """A round. Returns how many messages were filed in it, and whether it was whole."""
        filed, whole, links = 0, True, [(x, y) for x, y in self.pairs if os.path.exists(self.at(x, "base"))]
        self.chance.shuffle(links)
        self.counts["rounds"] += 1
        for x, y in links:
            if self.chance.random() < 0.05:
                self.scan(x)
            path = self.send(x, y)
            if path is None:
                continue
            if self.chance.random() < 0.03:
                self.counts["lost"] += 1
                whole = False
                continue
            counts = self.toss(y, path, self.chance.random() < 0.03)
            if counts is None:
                whole = False
                continue
            filed += counts[0]
            if counts[2] and (y, x) in self.pairs or not counts[2] and (y, x) not in self.pairs:
                self.wrong.append("%d from %d: notlinked %d" % (y, x, counts[2]))
        self.counts["filed"] += filed
        return filed, whole

    def expected(self, before):
        """What each system has to have, as sets of contents."""
        wanted = {x: {key: {text} for key, text in base.items()} for x, base in before.items()}
        for key in {key for base in before.values() for key in base}:
            holders = [x for x in self.systems if before[x].get(key, STUB) != STUB]
            self.longest = max(self.longest, *self.walks(key, before, set(holders)).values(), 0)
            for x in self.systems:
                if key not in before[x]:
                    ways = {y for y in holders if self.leads(key, before, y, x)}
                    if ways:
                        wanted[x][key] = {before[y][key] for y in ways}
                    elif holders and any(STUB == before[y].get(key) for y in self.systems):
                        self.counts["behind a stub"] += 1
        return wanted

    def leads(self, key, before, y, x):
        """Whether a walk from y to x is free of stubs of the message."""
        return x in self.walks(key, before, {y})

    def walks(self, key, before, begin):
        """How many links it takes to each system from one of these, past no stub of the message."""
        found, more = dict.fromkeys(begin, 0), sorted(begin)
        for at in more:
            for z in self.systems:
                if z not in found and (at, z) in self.pairs and (z, at) in self.pairs and before[z].get(key) != STUB:
                    found[z] = found[at] + 1
                    more.append(z)
        return found

    def compare(self, wanted):
        """Compares the bases after the repair."""
        for x in self.systems:
            has = self.base(x)
            for key in sorted(set(has) | set(wanted[x])):
                if has.get(key) not in wanted[x].get(key, {None}):
                    self.wrong.append("%d: %s is %r" % (x, key, has.get(key)))

    def repair(self):
        """Disturbs the net, repairs it, and compares."""
        self.link(self.pairs)
        for _ in range(self.chance.randint(5, 60)):
            self.disturb()
        for pair in sorted(self.pairs):
            if self.chance.random() < 0.02:
                self.pairs.discard(pair)
                self.counts["one-sided"] += 1
        self.link(self.pairs)
        before = {x: self.base(x) for x in self.systems}
        self.counts["stubs"] += sum(list(base.values()).count(STUB) for base in before.values())
        wanted, rounds, done = self.expected(before), 0, False
        while not done:
            filed, whole = self.round()
            rounds += whole
            done = whole and not filed
            if rounds > self.longest + 1:
                self.wrong.append("%d rounds, and %d links" % (rounds, self.longest))
                break
        self.compare(wanted)
        self.counts["differences"] = int(bool(self.wrong))


def tried(job):
    """The counts of a net, and what went wrong there."""
    number, spoil = job
    with tempfile.TemporaryDirectory() as folder:
        net = Net(number, folder, spoil)
        net.repair()
        return number, net.counts, net.wrong[:3]


def main():
    words = sys.argv[1:]
    spoil = words[:1] == ["--spoil"]
    nets, jobs, first = [int(word) for word in words[spoil:]] + [200, 1, 0][len(words) - spoil:]
    total = dict.fromkeys(COUNTS, 0)
    with multiprocessing.Pool(jobs) as pool:
        for number, counts, wrong in pool.imap_unordered(tried, [(first + i, spoil) for i in range(nets)]):
            for name in COUNTS:
                total[name] += counts[name]
            if wrong and not spoil:
                print("net %d: %s" % (number, "; ".join(wrong)))
    print("%d nets: %s" % (nets, ", ".join("%d %s" % (total[name], name) for name in COUNTS)))
    return int((total["differences"] == 0) if spoil else (total["differences"] > 0))


if __name__ == "__main__":
    sys.exit(main())
