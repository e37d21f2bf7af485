"""Runs random lists of commands on the files of random nets, and replays the same events. It compares the results
byte for byte: the base file of each system and each packet, after the last event and after some before it. If they
differ it prints the net and the first event after which they do.

Events are postings (also refused ones), scans, purges, and tosses. Packets are tossed again, in any order, or never.
A run may toss several, some of them for another system or missing. Torn packets are tossed whole afterwards, and some
have bytes after their end. The status and output of each command are checked too. At the end the counts of `replay`
are compared with those of `list`.

Arguments: how many nets (200), how many at a time (1), the first number (0). `--one NUMBER FOLDER` tries one net and
leaves its files. `--spoil` before these changes one byte of one base file of each net after some event. The trial has
to find each of these changes.
"""
import multiprocessing
import os
import random
import re
import shutil
import sys
import tempfile
import time
from typing import NamedTuple

from lib import laws, making, running, topologies
from lib.contents import PROGRAM, TOP, content_of, write

REPLAY = os.environ.get("BENCH", os.path.join(TOP, "crates", "test_trials", "out", "test_trials"))
MOMENT = "2000-01-01T00:00:00"
EMPTY = making.base(0, [])
CUTS = 8
COUNTS = ("commands", "events", "refused", "packets", "torn", "areas in order", "areas not in order",
          "base files compared", "packets compared", "bytes compared")


class Wrong(Exception):
    """What a command did wrong."""


class Exported(NamedTuple):
    """A packet that a scan left: its file, its bytes, and its addressee."""
    path: str
    content: bytes
    to: tuple


class Event(NamedTuple):
    """The state after an event: the number of lines of the script, the base files, the number of packets."""
    what: str
    lines: int
    bases: tuple
    packets: int


def cursor_and_count(base):
    """The two numbers of a base file."""
    base = EMPTY if base is None else base
    return int.from_bytes(base[8:12], "little"), int.from_bytes(base[12:16], "little")


class Net:
    """The files of a net, and the events so far."""

    def __init__(self, number, folder, spoil):
        self.chance = random.Random("stations %d" % number)
        self.folder, self.spoil = folder, spoil
        laws.clear(folder)
        self.runner = running.Runner(PROGRAM, folder)
        self.told = topologies.net(self.chance)
        self.addresses = [address for address, _, _ in self.told]
        self.tags = [[tag for tag, _ in areas] for _, _, areas in self.told]
        self.links = [write(self.path("%d.links" % i), making.link_file(address, areas, name))
                      for i, (address, name, areas) in enumerate(self.told)]
        for i in range(len(self.told)):
            os.mkdir(self.path("out.%d" % i))
        self.bases = [None] * len(self.told)
        self.packets, self.lines, self.events = [], [], []
        self.delivered, self.posted, self.serial = set(), set(), 0
        self.counts = dict.fromkeys(COUNTS, 0)

    def path(self, name):
        """The path of a file of this net."""
        return os.path.join(self.folder, name)

    def station(self, i):
        """The arguments for a system: its link file and its base file."""
        return self.links[i], self.path("%d.base" % i)

    def need(self, what, it):
        """Stops if something does not hold."""
        if not it:
            raise Wrong(what)

    def run(self, *words, fault=None, given=os.devnull):
        """Runs a command, which has to end well or with this fault. Returns its output."""
        self.counts["commands"] += 1
        ended = self.runner.run(*words, given=given)
        self.need("%s: status %d, fault %r" % (words[0], ended.status, ended.fault), ended.is_orderly())
        if fault is None:
            self.need("%s: fault %r" % (words[0], ended.fault), ended.status == 0)
        else:
            self.counts["refused"] += 1
            self.need("%s: %r and not %s" % (words[0], ended.fault, fault),
                      ended.status >= 2 and ended.fault.startswith(b"echonet: " + fault.encode()))
        return ended.out

    def happen(self, what, i, *lines):
        """Notes what a command left at a system, and the lines of the script for it."""
        self.lines += lines
        self.counts["events"] += len(lines)
        self.bases[i] = content_of(self.station(i)[1])
        self.events.append(Event(what, len(self.lines), tuple(self.bases), len(self.packets)))

    def post(self, i):
        """Posts: mostly a new serial in an area of the system."""
        tag = self.chance.choice(self.tags[i] * 4 + list(topologies.TAGS) + ["NONE"])
        given_tag = self.chance.choice((tag, tag, tag.lower()))
        self.serial = self.chance.choice((self.serial, self.serial + 1, self.serial + 1, self.serial + 1))
        serial = self.serial * 0x01234567 % (1 << 32)
        text = "%08x" % serial
        body = some_body(self.chance)
        ending = self.chance.choice((b"", b"", b"\n", b"\r\n")) if body else b""
        fault = "B1 NoArea" if tag not in self.tags[i] else "B4 KnownSerial" if (i, serial) in self.posted else None
        out = self.run("post", "--area", given_tag, "--to", "All", "--from", "Sysop", "--subject", text, "--serial",
                       self.chance.choice((text, text.upper())), "--at", MOMENT, *self.station(i),
                       fault=fault, given=write(self.path("body"), body + ending))
        if fault is None:
            self.posted.add((i, serial))
            self.need("post: %r" % out, out == b"posted %s %s %s\n" % (
                tag.encode(), making.shown(self.addresses[i]).encode(), text.encode()))
        line = b"POST %d %s %s" % (i, given_tag.encode(), text.encode())
        self.happen("post at %d in %s" % (i, tag), i, line + b" " * (body != b"") + body)

    def scan(self, i):
        """Scans: the packets are the printed ones, in order."""
        cursor, count = cursor_and_count(self.bases[i])
        out = self.run("scan", "--at", MOMENT, *self.station(i), self.path("out.%d" % i))
        for address, messages, size in laws.PACKET_LINE.findall(out):
            to = tuple(int(part) for part in re.split(rb"[:/]", address))
            path = self.path(os.path.join("out.%d" % i, "%d.%d.%d.%d.pkt" % (*to, cursor)))
            content = content_of(path)
            self.need("scan: no packet %s" % path, content is not None)
            self.need("scan: %d bytes, not %s" % (len(content), size), len(content) == int(size))
            self.need("scan: %s of %d messages" % (messages, count - cursor), int(messages) <= count - cursor)
            self.packets.append(Exported(path, content, to))
        self.happen("scan at %d" % i, i, b"SCAN %d" % i)
        self.need("scan: the cursor", cursor_and_count(self.bases[i]) == (count, count))

    def purge(self, i):
        """Purges."""
        out = self.run("purge", *self.station(i))
        self.need("purge: %r" % out, re.fullmatch(rb"purged \d+\n", out))
        self.happen("purge at %d" % i, i, b"PURGE %d" % i)

    def toss(self, i):
        """Tosses some packets for the system, and at times one that ends the run."""
        own, others = self.packets_for(i)
        if not own and not others:
            return self.post(i)
        chosen = [self.chance.choice(own[-8:] + own) for _ in range(self.chance.randint(1, 4))] if own else []
        files = [self.file_of(k) for k in chosen]
        fault, good = None, len(chosen)
        if not own or self.chance.random() < 0.15:
            good = self.chance.randint(0, len(chosen))
            if others and self.chance.random() < 0.7:
                other = self.chance.choice(others)
                files.insert(good, self.packets[other].path)
                fault = "C1 NotForUs " + making.shown(self.packets[other].to)
            else:
                files.insert(good, self.path("none.pkt"))
                fault = "cannot use " + files[good]
        told = fault is not None and fault.startswith("C1")
        self.tossed(i, files, fault, good + told)
        self.delivered |= set(chosen[:good])
        self.happen("toss at %d of %s%s" % (i, chosen[:good], ", then " + fault if fault else ""), i,
                    *(b"DELIVER %d" % k for k in chosen[:good]))

    def packets_for(self, i):
        """The indexes of the packets that are for the system, and of those that are not."""
        found = ([], [])
        for k, packet in enumerate(self.packets):
            found[packet.to != self.addresses[i]].append(k)
        return found

    def file_of(self, k):
        """The file of a packet, or another file with the same packet and more bytes after its end."""
        packet = self.packets[k]
        if self.chance.random() < 0.9:
            return packet.path
        return write(self.path("%d.long" % k), packet.content + self.chance.choice((b"\0", b"hello", packet.content)))

    def tossed(self, i, files, fault, lines):
        """Runs `toss`, whose lines have to count what the base gained."""
        before = cursor_and_count(self.bases[i])
        out = self.run("toss", *self.station(i), *files, fault=fault)
        tallies = laws.TALLY.findall(out)
        self.bases[i] = content_of(self.station(i)[1])
        after = cursor_and_count(self.bases[i])
        self.need("toss: %d lines, not %d" % (len(tallies), lines), len(tallies) == lines == out.count(b"\n"))
        gained = sum(int(tally[0]) for tally in tallies)
        self.need("toss: %s, %s after %s" % (out, after, before), after == (before[0], before[1] + gained))

    def torn(self, i):
        """Tosses a packet cut short, which ends in a fault, and then the whole one."""
        own, _ = self.packets_for(i)
        if not own:
            return self.scan(i)
        k = self.chance.choice(own[-8:])
        packet = self.packets[k]
        cut = self.chance.randrange(len(packet.content))
        self.tossed(i, [write(self.path("torn.pkt"), packet.content[:cut])], "P1 Truncated at ", 1)
        self.tossed(i, [packet.path], None, 1)
        self.counts["torn"] += 1
        self.delivered.add(k)
        self.happen("toss at %d of %d cut at %d, then whole" % (i, k, cut), i, b"DELIVER %d" % k)

    def settle(self):
        """Tosses each packet and scans until nothing waits."""
        for _ in range(2 * len(self.told)):
            for i in range(len(self.told)):
                missing = [k for k in self.packets_for(i)[0] if k not in self.delivered]
                if missing:
                    self.tossed(i, [self.packets[k].path for k in missing], None, len(missing))
                    self.delivered |= set(missing)
                    self.happen("toss at %d of %s" % (i, missing), i, *(b"DELIVER %d" % k for k in missing))
                self.scan(i)

    def happen_all(self):
        """All that happens to the net."""
        kinds = [self.post] * 30 + [self.scan] * 22 + [self.toss] * 34 + [self.torn] * 5 + [self.purge] * 9
        last = self.chance.randint(100, 250)
        spoiled = random.Random("spoil %d" % last).randrange(10, last) if self.spoil else last
        for _ in range(spoiled):
            self.chance.choice(kinds)(self.chance.randrange(len(self.told)))
        if self.spoil:
            return self.change_a_byte()
        if self.chance.random() < 0.4:
            self.settle()
        self.counted_alike()

    def change_a_byte(self):
        """Changes a byte of a base file after the last event."""
        chance = random.Random("byte %d" % len(self.lines))
        i = chance.choice([i for i, base in enumerate(self.bases) if base is not None])
        content = bytearray(self.bases[i])
        content[chance.randrange(len(content))] ^= chance.randint(1, 255)
        write(self.station(i)[1], content)
        self.bases[i] = content_of(self.station(i)[1])
        last = self.events[-1]
        self.events[-1] = last._replace(what=last.what + " (spoiled)", bases=tuple(self.bases))

    def counted_alike(self):
        """The counts of `replay` are those of `list`, and of the tosses."""
        lines, all_scanned = [], True
        for i, tags in enumerate(self.tags):
            for tag in tags:
                listed = self.run("list", "--area", tag, self.station(i)[1])
                found = re.findall(rb"(?m)^message \d+ area (\S+) .*?( waiting)?$", listed)
                waiting = sum(end != b"" for _, end in found)
                lines.append("system %s %s filed %d waiting %d" % (making.shown(self.addresses[i]), tag, len(found), waiting))
            cursor, count = cursor_and_count(self.bases[i])
            all_scanned = all_scanned and cursor == count
        missing = len(self.packets) - len(self.delivered)
        lines.append("packets %d undelivered %d" % (len(self.packets), missing))
        lines.append("settled " + ("yes" if all_scanned and missing == 0 else "no"))
        told = self.run("replay", self.script(len(self.lines)), *self.links).decode().split("\n")[:-1]
        self.need("replay counts %s, the files are %s" % (told, lines), told == lines)

    def script(self, count):
        """The file of the first so many lines."""
        return write(self.path("script"), b"".join(line + b"\n" for line in self.lines[:count]))

    def checked(self):
        """Counts the areas that are in order."""
        for tag in topologies.TAGS:
            if any(tag in tags for tags in self.tags):
                ended = self.runner.run("check", tag, *self.links)
                self.need("check: %r" % ended.fault, ended.status in (0, 1))
                self.counts["areas not in order" if ended.status else "areas in order"] += 1


def some_body(chance):
    """The body of a posting, in one line."""
    letters = bytes(range(0x20, 0x7F)) + b"\t\x80\x8d\xe4\xff"
    plain = bytes(chance.choice(letters) for _ in range(int(300 * chance.random() ** 3)))
    return chance.choice((
        plain, plain, plain, b"", b" ", b"  x  ", b"SEEN-BY: 10/1 2 3", b"--- ", b" * Origin: elsewhere (1:10/9)",
        b"AREA:OTHER", plain * chance.randint(1, 30)))


def difference(net, event, replayed):
    """How the replay of the events up to this one differs from the files at that time, or None."""
    laws.clear(replayed.folder)
    ended = replayed.run("world", replayed.folder, net.script(event.lines), *net.links)
    if ended.status != 0:
        return "the replay ends with status %d, %r" % (ended.status, ended.fault)
    wanted = {"%d.base" % i: EMPTY if base is None else base for i, base in enumerate(event.bases)}
    wanted.update(("%d.pkt" % k, packet.content) for k, packet in enumerate(net.packets[:event.packets]))
    left = {name for name in os.listdir(replayed.folder) if not name.startswith(".")}
    if left != set(wanted):
        return "files of one side alone: %s" % sorted(left ^ set(wanted))
    for name, content in wanted.items():
        found = content_of(os.path.join(replayed.folder, name))
        if found != content:
            at = next((n for n, (one, other) in enumerate(zip(found, content)) if one != other), min(len(found), len(content)))
            return "%s differs at byte %d: %d bytes replayed, %d on disk" % (name, at, len(found), len(content))
        net.counts["packets compared" if name.endswith(".pkt") else "base files compared"] += 1
        net.counts["bytes compared"] += len(content)
    return None


def first_difference(net, replayed):
    """Compares after some events and the last one. Searches the first event where that differs."""
    last = len(net.events) - 1
    begin = 0
    for cut in sorted({*(random.Random(last).randrange(last + 1) for _ in range(CUTS)), last}):
        if difference(net, net.events[cut], replayed) is not None:
            for n in range(begin, cut + 1):
                found = difference(net, net.events[n], replayed)
                if found is not None:
                    return "event %d, %s: %s" % (n + 1, net.events[n].what, found)
        begin = cut + 1
    return None


def files_stay(net):
    """Whether the packet files are unchanged, and there are no others."""
    for packet in net.packets:
        net.need("%s has changed" % packet.path, content_of(packet.path) == packet.content)
    left = sum(len(os.listdir(net.path("out.%d" % i))) for i in range(len(net.told)))
    net.need("%d packet files, not %d" % (left, len(net.packets)), left == len(net.packets))


def try_net(number, folder, spoil):
    """Tries one net. Returns its counts, and what did not hold, or None."""
    net = Net(number, os.path.join(folder, "net"), spoil)
    replayed = running.Runner(REPLAY, os.path.join(folder, "replayed"))
    wrong = None
    try:
        net.checked()
        net.happen_all()
        files_stay(net)
    except Wrong as found:
        wrong = "after event %d: %s" % (len(net.events), found)
    found = first_difference(net, replayed) if net.events else None
    net.counts["packets"] = len(net.packets)
    return net.counts, found or wrong


def try_share(share):
    """Tries each so-many-th net, in a process of its own. Returns the counts and the failures."""
    first, count, step, begin, spoil = share
    folder = tempfile.mkdtemp(prefix="echonet-trials.", dir="/dev/shm" if os.path.isdir("/dev/shm") else None)
    all_counts, failures = dict.fromkeys(COUNTS, 0), []
    try:
        for number in range(begin + first, begin + count, step):
            counts, failure = try_net(number, folder, spoil)
            for name, value in counts.items():
                all_counts[name] += value
            if failure is not None:
                failures.append((number, failure))
    finally:
        shutil.rmtree(folder)
    return all_counts, failures


def try_all(count, jobs, begin, spoil):
    """Tries so many nets, prints what did not hold, and the counts. Returns the status."""
    started = time.time()
    with multiprocessing.Pool(jobs) as pool:
        results = pool.map(try_share, [(first, count, jobs, begin, spoil) for first in range(jobs)], chunksize=1)
    failures = sorted(failure for result in results for failure in result[1])
    for number, failure in failures[:50]:
        print("failed: net %d: %s" % (number, failure), file=sys.stderr)
    counts = ", ".join("%d %s" % (sum(result[0][name] for result in results), name) for name in COUNTS)
    print("%d nets in %.0f s: %s" % (count, time.time() - started, counts))
    print("stations: %d passed, %d failed" % (count - len(failures), len(failures)))
    return 1 if failures else 0


def main(words):
    """Tries one net or all."""
    if not os.path.exists(REPLAY):
        print("stations.py: there is no %s: run make trials" % REPLAY, file=sys.stderr)
        return 1
    spoil = words[:1] == ["--spoil"]
    words = words[spoil:]
    if words[:1] == ["--one"]:
        os.makedirs(words[2], exist_ok=True)
        counts, failure = try_net(int(words[1]), os.path.abspath(words[2]), spoil)
        print(counts, failure or "all holds")
        return 1 if failure else 0
    numbers = [int(word) for word in words] + [200, 1, 0][len(words):]
    return try_all(*numbers, spoil)


if __name__ == "__main__":
    sys.exit(main(sys.argv[1:]))
