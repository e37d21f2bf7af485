"""links-seen on a net of thirty systems. It finds every link that mail took and no other, and `check` judges the files
that it writes as the real ones.

The areas are trees of polygons, one of them with a further link that makes a loop. Every system posts in each of its
areas, and all scan and toss until nothing moves. Two systems have CrashMail II, if it is here, one with bases of *.MSG
and one of JAM. The trial notes who sent each message to whom, by the packets that it moves. Then it reads the bases of
all systems, and of some, as JAM bases, stored messages, JSON or packets. Each link has to have the count of messages
that took it. The packets have the second copies that come over a loop, too. SEED makes the same net again. Argument: how
many systems (30).
"""
import os
import random
import shutil
import subprocess
import sys
import tempfile
import time
from collections import Counter

from lib import making, reading, topologies
from lib.contents import PROGRAM, TOP, read, write
from jam import crashmail_settings

SEEN = os.path.join(TOP, "tools", "links-seen")
DAY, STAMP = "2026-07-03", "2026-07-03T12:34:56"


def run(*words, given=b"", status=0):
    """Runs a command, and returns its output."""
    done = subprocess.run(words, input=given, stdout=subprocess.PIPE, stderr=subprocess.PIPE, check=False)
    if done.returncode != status:
        sys.exit("links_seen.py: %r: status %d, %r" % (words, done.returncode, done.stderr))
    return done.stdout.decode()


class Station:
    """A system with echonet. `areas` has its links by area."""

    def __init__(self, place, address, areas):
        self.address, self.areas = address, areas
        self.place = os.path.join(place, "%d.%d.%d" % address)
        for name in ("base", "inbound", "tossed", "out"):
            os.makedirs(self.path(name))
        self.links = write(self.path("links"), making.link_file(address, sorted(areas.items())))
        self.serial = 0

    def path(self, *names):
        """A path in its folder."""
        return os.path.join(self.place, *names)

    def post(self, tag):
        """A posting."""
        self.serial += 1
        run(PROGRAM, "post", "--area", tag, "--to", "All", "--from", "Ann", "--subject", "Hi", "--serial", "%08x" % self.serial,
            "--at", STAMP, self.links, self.path("base"), given=b"Hello\n")

    def send(self):
        """The packets of a scan."""
        run(PROGRAM, "scan", "--at", STAMP, self.links, self.path("base"), self.path("out"))
        names = [self.path("out", name) for name in sorted(os.listdir(self.path("out")))]
        contents = [read(name) for name in names]
        for name in names:
            os.remove(name)
        return contents

    def take(self):
        """Tosses all received packets, which stay in a folder."""
        names = sorted(os.listdir(self.path("inbound")))
        if names:
            run(PROGRAM, "toss", self.links, self.path("base"), *(self.path("inbound", name) for name in names))
        for name in names:
            shutil.move(self.path("inbound", name), self.path("tossed", name))

    def sources(self, chance):
        """Its messages as sources, each area in one form, or all by packets."""
        found = []
        for tag in sorted(self.areas):
            kind = chance.choice(("jam", "msg", "json"))
            path = self.path("%s.%s" % (kind, tag))
            if kind == "json":
                write(path, run(PROGRAM, "export", "--json", "--area", tag, self.path("base")).encode())
                found.append("json:" + path)
                continue
            os.makedirs(path, exist_ok=True)
            run(PROGRAM, "export", "--" + kind, path + ("/base" if kind == "jam" else ""), "--area", tag, self.path("base"))
            found.append("%s:%s:%s" % (kind, tag, path + ("/base" if kind == "jam" else "")))
        return found + ["packets:" + self.path("tossed")]


class CrashMail(Station):
    """A system with CrashMail II, its bases of one kind."""

    def __init__(self, place, address, areas, kind):
        super().__init__(place, address, areas)
        self.kind = kind
        links = sorted({link for links in areas.values() for link in links})
        os.makedirs(self.path("msg"))
        os.makedirs(self.path("write"))
        text = crashmail_settings(self.place, making.shown(address), [making.shown(link) for link in links])
        for tag, others in sorted(areas.items()):
            text += 'AREA "%s" %s %s "%s"\nEXPORT %s\n' % (
                tag, making.shown(address), kind, self.path("msg", tag), " ".join(making.shown(link) for link in others))
        write(self.path("prefs"), text.encode())

    def crashmail(self, *words):
        """A run of CrashMail, which names packets after the second."""
        time.sleep(1.1)
        run("crashmail", "SETTINGS", self.path("prefs"), *words)

    def post(self, tag):
        """A posting by crashwrite."""
        time.sleep(1.1)
        write(self.path("body"), b"Hello\n")
        run("crashwrite", "DIR", self.path("write"), "AREA", tag, "TONAME", "All", "TOADDR", making.shown(self.address), "FROMNAME", "Bob",
            "FROMADDR", making.shown(self.address), "SUBJECT", "Hi", "ORIGIN", "Two", "TEXT", self.path("body"))
        self.crashmail("TOSSDIR", self.path("write"), "NOSECURITY")

    def send(self):
        """The packets that CrashMail made."""
        names = [self.path("packets", name) for name in sorted(os.listdir(self.path("packets"))) if name.lower().endswith(".pkt")]
        contents = [read(name) for name in names]
        for name in names + [self.path("outbound", name) for name in os.listdir(self.path("outbound"))]:
            os.remove(name)
        return contents

    def take(self):
        """CrashMail tosses names of eight characters."""
        names = sorted(os.listdir(self.path("inbound")))
        for number, name in enumerate(names):
            os.rename(self.path("inbound", name), self.path("inbound", "%08x.pkt" % number))
        if names:
            self.crashmail("TOSS")

    def sources(self, chance):
        """Its bases."""
        del chance
        return ["%s:%s:%s" % (self.kind.lower(), tag, self.path("msg", tag)) for tag in sorted(self.areas)
                if os.path.exists(self.path("msg", tag + (".jhr" if self.kind == "JAM" else "")))]


class Net:
    """All systems, for each message the system from which each other one has it first, and all copies that came."""

    def __init__(self, place, chance, count):
        self.place, self.chance = place, chance
        systems = [(1, 10 + number // 12, number % 12 + 1) for number in range(count)]
        self.areas = {}
        for tag, members in (("ALL", systems), ("SOME", chance.sample(systems, max(4, count // 2))), ("LOOP", chance.sample(systems, max(4, count // 3)))):
            pairs = topologies.tree_of_polygons(chance, members)
            if tag == "LOOP":
                ring = members[:4]
                pairs = {pair for pair in topologies.ring(chance, ring)} | {
                    pair for pair in topologies.tree_of_polygons(chance, [ring[0]] + members[4:])}
            self.areas[tag] = members, pairs
        of = {system: {tag: sorted(other for one, other in pairs if one == system) for tag, (members, pairs) in self.areas.items() if system in members}
              for system in systems}
        with_crashmail = chance.sample(systems, 2) if shutil.which("crashmail") else []
        self.stations = {system: CrashMail(place, system, of[system], "MSG" if system == with_crashmail[0] else "JAM") if system in with_crashmail
                         else Station(place, system, of[system]) for system in systems}
        self.first, self.copies, self.packets = {}, set(), 0

    def deliver(self, content):
        """Puts a packet into the inbound folder of its destination, and notes its messages."""
        origin, goal = reading.read_header(content)
        messages, fault, _ = reading.read_packet(content, reading.MOST_SHOWN)
        if fault:
            sys.exit("links_seen.py: a packet has " + fault)
        self.packets += 1
        write(self.stations[goal].path("inbound", "%06d.pkt" % self.packets), content)
        for message in messages:
            echo = reading.read_text(message.text)
            key = echo.tag.decode(), reading.first_id(echo.kept), goal
            self.first.setdefault(key, origin)
            self.copies.add((key, origin))

    def move(self):
        """All post, and then scan and toss until nothing moves."""
        for station in self.stations.values():
            for tag in sorted(station.areas):
                station.post(tag)
        while True:
            contents = [content for station in self.stations.values() for content in station.send()]
            if not contents:
                return self.check()
            for content in contents:
                self.deliver(content)
            for station in self.stations.values():
                station.take()

    def check(self):
        """Each message of an area was sent to each other system of it."""
        for tag, (members, _) in self.areas.items():
            found = Counter(key[1] for key in self.first if key[0] == tag)
            if len(found) != len(members) or set(found.values()) != {len(members) - 1}:
                sys.exit("links_seen.py: %s: %r" % (tag, found))

    def taken(self, systems):
        """The links of the ways by which messages came to some systems, each with its count of messages. CrashMail keeps no
        packets, so only its first copies are seen."""
        links = set()
        for (tag, found, goal), origin in self.copies:
            is_first = self.first[tag, found, goal] == origin
            if goal in systems and (is_first or not isinstance(self.stations[goal], CrashMail)):
                while origin is not None:
                    links.add((tag, min(origin, goal), max(origin, goal), found))
                    origin, goal = self.first.get((tag, found, origin)), origin
        return Counter(link[:3] for link in links)


def seen(folder):
    """The links in the files of links-seen, each with its count. Each has to be in both files."""
    found, both = {}, Counter()
    for name in sorted(os.listdir(folder)):
        content = read(os.path.join(folder, name))
        system, areas = reading.read_links(content)
        known = [line.split() for line in content.decode().splitlines() if line.startswith(";")]
        for tag, links in areas.items():
            for link in links:
                word = known.pop(0)
                if word[1] != making.shown(link) or word[5] not in (DAY, time.strftime("%Y-%m-%d"), time.strftime("%Y-%m-%d", time.gmtime())):
                    sys.exit("links_seen.py: a comment of %s: %r" % (name, word))
                key = tag.decode(), min(system, link), max(system, link)
                both[key] += 1
                found[key] = int(word[2])
    if set(both.values()) - {2}:
        sys.exit("links_seen.py: a link is in one file only")
    return found


def try_systems(net, systems, name):
    """Reads the bases of some systems. Returns the folder of the link files."""
    folder = os.path.join(net.place, name)
    words = [word for system in systems for word in ["--own", making.shown(system)] + net.stations[system].sources(net.chance)]
    run(sys.executable, SEEN, folder, *words)
    found, wanted = seen(folder), net.taken(systems)
    if found != wanted:
        sys.exit("links_seen.py: %s: %r, and not %r" % (name, sorted(set(found.items()) ^ set(wanted.items())), len(wanted)))
    return folder


def check_verdicts(net, folder):
    """`check` says the same of the files that were seen, in each area whose links were all used. Returns how many."""
    verdicts, real, used = [], [station.links for station in net.stations.values()], seen(folder)
    paths = [os.path.join(folder, name) for name in os.listdir(folder)]
    for tag, (_, pairs) in net.areas.items():
        if {link[1:] for link in used if link[0] == tag} != {(min(pair), max(pair)) for pair in pairs}:
            continue
        answers = [subprocess.run([PROGRAM, "check", tag, *files], stdout=subprocess.PIPE, check=False).stdout for files in (paths, real)]
        if answers[0] != answers[1]:
            sys.exit("links_seen.py: %r, and not %r" % tuple(answers))
        verdicts.append(answers[0].split()[0])
    return verdicts


def main():
    """One net."""
    seed = int(os.environ.get("SEED", random.randrange(2 ** 32)))
    print("seed %d" % seed, flush=True)
    chance = random.Random(seed)
    with tempfile.TemporaryDirectory() as place:
        net = Net(place, chance, int(sys.argv[1]) if len(sys.argv) > 1 else 30)
        net.move()
        systems = list(net.stations)
        verdicts = check_verdicts(net, try_systems(net, systems, "all"))
        if b"yes" not in verdicts:
            sys.exit("links_seen.py: no area in order has all its links used")
        for number in range(5):
            try_systems(net, chance.sample(systems, chance.randint(1, 3)), "some%d" % number)
        kinds = Counter(type(station).__name__ for station in net.stations.values())
        print("links_seen.py: %d systems, %d with CrashMail, %d messages, %d packets, %d links; verdicts %s" % (
            len(systems), kinds["CrashMail"], len({key[:2] for key in net.first}), net.packets, len(net.taken(systems)),
            b" ".join(verdicts).decode()))


if __name__ == "__main__":
    main()
