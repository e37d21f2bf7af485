"""Tries `why` on all small nets, and on greater ones with one defect each. Its events are done with `post`, `scan`
and `toss` on real files. Its statement of the harm is compared with what trials/lib/reading.py reads of the resulting
packets and bases. `replay` accepts the script and has the same counts. `picture --why` is compared with `picture`,
and with the events that sent these packets.

The small nets are: every connected net of up to 5 systems; every way in which 3 systems list each other and
themselves; every net of 4 of which two have one net and node; every way in which 2 systems list each other and an
address without a file. If `check` says no by V3, V5, V7 or V8, a system has to receive a message again or its own, or
to miss one. If an address without a file is linked, the same, or the message never comes to rest.

Arguments: how many greater nets (40), how many systems they have (300).
"""
import itertools
import os
import random
import shutil
import sys
import tempfile

from lib import laws, making, reading, running
from lib.contents import PROGRAM, write

MOMENT = "2000-01-01T00:00:00"
BROKEN = (b"V3", b"V5", b"V7", b"V8")
COUNTS = ("nets", "yes", "again", "own", "never gets", "never rests", "no harm", "events")


class Wrong(Exception):
    """What the program said wrongly."""


def need(what, it):
    """Stops if something does not hold."""
    if not it:
        raise Wrong(what)


class Net:
    """The link files of a net, its bases, and the packets so far."""

    def __init__(self, folder, listed, runner):
        laws.clear(folder)
        self.folder, self.runner = folder, runner
        self.addresses = [address for address, _ in listed]
        self.carriers = {address for address, links in listed if links is not None}
        self.files = []
        for i, (address, links) in enumerate(listed):
            areas = [] if links is None else [("TEST", links)]
            self.files.append(self.put("%d.links" % i, making.link_file(address, areas)))
        self.packets = []
        self.steps = []
        self.step = 0
        self.delivered = set()

    def put(self, name, content):
        """Writes a file, and returns its path."""
        return write(os.path.join(self.folder, name), content)

    def base(self, i):
        """The base file of a system."""
        return os.path.join(self.folder, "%d.base" % i)

    def run(self, *words):
        """Runs a command that has to end well."""
        ended = self.runner.run(*words)
        need("%s ended with %d, %r" % (words[0], ended.status, ended.fault), ended.status == 0)
        return ended.out

    def happen(self, line):
        """Does a line of the script."""
        self.step += 1
        word, number, *rest = line.split()
        number = int(number)
        if word == b"POST":
            need("the posting %r" % line, rest == [b"TEST", b"00000001"])
            self.run("post", "--area=TEST", "--to=All", "--from=Sysop", "--subject=00000001", "--serial=00000001",
                     "--at=" + MOMENT, self.files[number], self.base(number))
        elif word == b"SCAN":
            self.scan(number)
        elif word == b"DELIVER":
            self.deliver(number)
        else:
            raise Wrong("the line %r" % line)

    def scan(self, i):
        """A system scans. Its packets are appended, by ascending destination."""
        out = os.path.join(self.folder, "out")
        laws.clear(out)
        self.run("scan", "--at", MOMENT, self.files[i], self.base(i), out)
        made = []
        for name in os.listdir(out):
            with open(os.path.join(out, name), "rb") as file:
                content = file.read()
            made.append((reading.read_header(content)[1], content))
        self.packets += sorted(made)
        self.steps += [self.step] * len(made)

    def deliver(self, k):
        """A packet reaches the first system of its destination."""
        to, content = self.packets[k]
        if to in self.addresses:
            i = self.addresses.index(to)
            self.run("toss", self.files[i], self.base(i), self.put("packet", content))
            self.delivered.add(k)

    def ids(self, content):
        """The ids of the messages of a packet."""
        messages, fault, _ = reading.read_packet(content, reading.MOST_SHOWN)
        need("a packet with a fault", fault is None)
        return [reading.first_id(reading.read_text(message.text).kept) for message in messages]

    def times(self, address, message):
        """How many copies of a message the packets to an address hold."""
        return sum(self.ids(content).count(message) for to, content in self.packets if to == address)

    def sent_over(self, address, message):
        """The steps at which each link carries a message to an address, by the link's two ends."""
        steps = {}
        for step, (to, content) in zip(self.steps, self.packets):
            if to == address and message in self.ids(content):
                ends = frozenset((reading.read_header(content)[0], to))
                steps.setdefault(ends, []).append(step)
        return steps

    def messages(self, i):
        """The cursor and the ids of a base."""
        if not os.path.exists(self.base(i)):
            return 0, []
        with open(self.base(i), "rb") as file:
            cursor, messages = making.read_base(file.read())
        return cursor, [making.id_of(message) for message in messages]

    def has_settled(self):
        """Whether nothing waits and all packets were tossed."""
        waits = any(cursor < len(ids) for cursor, ids in map(self.messages, range(len(self.files))))
        return not waits and len(self.delivered) == len(self.packets)

    def lacks(self, address, message):
        """Whether a carrier of this address lacks the message."""
        return any(message not in self.messages(i)[1] for i, own in enumerate(self.addresses) if own == address)

    def never_comes(self, message):
        """Whether a packet with the message goes to the address without a file."""
        return any(to not in self.addresses and message in self.ids(content) for to, content in self.packets)


def address_in(words):
    """The address at the beginning."""
    zone, rest = words.decode().split(":")
    net, node = rest.split("/")
    return int(zone), int(net), int(node)


def harm_is_so(net, words):
    """Finds the harm that a line states, and its links. The statement has to be true."""
    if words[2:] == b"never comes to rest".split():
        message = b" ".join(words[:2])
        need("a message that comes to rest", net.never_comes(message))
        return "never rests", {}
    address = address_in(words[0])
    need("no carrier", address in net.carriers)
    if words[1:3] == [b"never", b"gets"]:
        message = b" ".join(words[3:])
        need("not settled", net.has_settled())
        need("it has it", net.lacks(address, message))
        return "never gets", net.sent_over(address, message)
    if words[1:5] == b"is sent its own".split():
        message = b" ".join(words[5:])
        need("not its own", address_in(words[5]) == address)
        need("not sent", net.times(address, message) >= 1)
        return "own", net.sent_over(address, message)
    need("the harm %r" % words, words[1:3] == [b"is", b"sent"] and words[-1] == b"times")
    message, times = b" ".join(words[3:5]), int(words[5])
    need("sent %d times" % times, times == net.times(address, message) >= 2)
    return "again", net.sent_over(address, message)


def picture_is_so(net, steps):
    """With `--why` the picture has these steps as labels of its links, and is otherwise the same."""
    plain = net.runner.run("picture", "TEST", *net.files)
    drawn = net.runner.run("picture", "--why", "TEST", *net.files)
    need("the status of a picture", plain.is_orderly(1) and drawn.is_orderly(1) and plain.status == drawn.status)
    expected = []
    for line in plain.out.splitlines():
        words = line.split(b'"')
        ends = frozenset(map(address_in, words[1:4:2])) if line[:1] == b'"' and len(words) > 4 else None
        if ends in steps:
            line = line[:-1] + b' [label="%s"];' % b",".join(b"%d" % step for step in steps[ends])
        expected.append(line)
    need("the picture %r" % drawn.out, drawn.out.splitlines() == expected)


def replays_alike(net, script):
    """The printed script is one for `replay`, which counts the same packets."""
    out = net.run("replay", net.put("script", script), *net.files)
    counts = b"packets %d undelivered %d\n" % (len(net.packets), len(net.packets) - len(net.delivered))
    need("replay: %r" % out, counts in out)


def named_so(net, lines, events):
    """Before the events there is a note for each system that posts or scans, ascending, with its address and its
    file."""
    systems = sorted({int(words[1]) for words in map(bytes.split, events) if words[0] != b"DELIVER"})
    need("who is who", lines[:-len(events)] == [
        b"; %d is %s %s" % (i, b"%d:%d/%d" % net.addresses[i], os.fsencode(net.files[i])) for i in systems])


def try_net(net, counts):
    """Tries a net. Returns the first line and the found harm."""
    checked = net.runner.run("check", "TEST", *net.files)
    ended = net.runner.run("why", "TEST", *net.files)
    need("status %d" % ended.status, ended.is_orderly(1) and ended.status == checked.status)
    lines = ended.out.splitlines()
    need("the verdict", lines[0] + b"\n" == b"; " + checked.out)
    counts["nets"] += 1
    if ended.status == 0:
        need("more after a yes", len(lines) == 1)
        picture_is_so(net, {})
        counts["yes"] += 1
        return checked.out, "yes"
    if lines[1:] == [b"; no harm found"]:
        picture_is_so(net, {})
        counts["no harm"] += 1
        return checked.out, "no harm"
    events = [line for line in lines[1:-1] if not line.startswith(b";")]
    named_so(net, lines[1:-1], events)
    for line in events:
        net.happen(line)
        counts["events"] += 1
    need("the last line", lines[-1].startswith(b"; "))
    harm, steps = harm_is_so(net, lines[-1][2:].split())
    picture_is_so(net, steps)
    counts[harm] += 1
    replays_alike(net, ended.out)
    return checked.out, harm


def is_as_promised(net, verdict, harm):
    """Each harm that has to be found was found."""
    fault = verdict.split()[2] if verdict.startswith(b"no") else b""
    if fault in BROKEN:
        need("%r: %s" % (verdict, harm), harm in ("again", "own", "never gets"))
    if fault == b"V4" and address_in(verdict.split()[5]) not in net.addresses:
        need("%r: %s" % (verdict, harm), harm != "no harm")


def own(number):
    """The address of a system."""
    return 1, 10, number + 1


def with_links(addresses, links):
    """What each system lists, from pairs of which the first lists the second."""
    return [(address, sorted(addresses[other] for one, other in links if one == i))
            for i, address in enumerate(addresses)]


def both_ways(links):
    """Links that both files list."""
    return [pair for one, other in links for pair in ((one, other), (other, one))]


def is_connected(count, links):
    """Whether links join all systems."""
    seen, front = {0}, [0]
    while front:
        at = front.pop()
        for one, other in both_ways(links):
            if one == at and other not in seen:
                seen.add(other)
                front.append(other)
    return len(seen) == count


def subsets(items):
    """All sets of these."""
    return itertools.chain.from_iterable(itertools.combinations(items, size) for size in range(len(items) + 1))


def small_nets():
    """Every small net."""
    for count in range(1, 6):
        addresses = [own(i) for i in range(count)]
        for links in subsets(list(itertools.combinations(range(count), 2))):
            if is_connected(count, links):
                yield with_links(addresses, both_ways(links))
    three = [own(i) for i in range(3)]
    for links in subsets([(one, other) for one in range(3) for other in range(3)]):
        yield with_links(three, links)
    twins = [(1, 10, 1), (1, 10, 2), (1, 10, 3), (2, 10, 3)]
    for links in subsets(list(itertools.combinations(range(4), 2))):
        yield with_links(twins, both_ways(links))
    for links in subsets([(one, other) for one in range(2) for other in range(3) if one != other]):
        yield with_links(three, links)[:2]
        yield with_links(three, links)[:2] + [(three[2], None)]


def tidy_net(chance, count):
    """The links of a tidy net: polygons of two to five, each of which begins at an existing system."""
    links, blocks, size = [], [], 1
    while size < count:
        more = min(chance.choice([1, 1, 1, 2, 3, 4]), count - size)
        block = [chance.randrange(size)] + list(range(size, size + more))
        links += itertools.combinations(block, 2)
        blocks.append(block)
        size += more
    return links, blocks


def great_net(chance, count):
    """A large net with one defect."""
    links, blocks = tidy_net(chance, count)
    addresses = [(1, 10 + i // 100, 1 + i % 100) for i in range(count)]
    listed = set(both_ways(links))
    defect = chance.choice(["self", "unknown", "side", "twins", "apart", "loop", "broken"])
    one, other = chance.sample(range(count), 2)
    if defect == "self":
        listed.add((one, one))
    elif defect == "side":
        listed.discard(chance.choice(sorted(listed)))
    elif defect == "twins":
        addresses[one] = (2, *addresses[other][1:])
    elif defect == "apart":
        cut = chance.choice([block for block in blocks if len(block) == 2])
        listed -= set(both_ways([tuple(cut)]))
    elif defect == "loop":
        listed |= set(both_ways([(one, other)]))
    elif defect == "broken":
        block = chance.choice([block for block in blocks if len(block) > 3])
        listed -= set(both_ways([tuple(chance.sample(block, 2))]))
    net = with_links(addresses, listed)
    if defect == "unknown":
        net[one][1].append((3, 3, 3))
    chance.shuffle(net)
    return net


def tried(name, nets, folder, runner):
    """Tries nets, and prints what was found."""
    counts = dict.fromkeys(COUNTS, 0)
    for number, listed in enumerate(nets):
        net = Net(folder, listed, runner)
        try:
            is_as_promised(net, *try_net(net, counts))
        except Wrong as wrong:
            print("%s, net %d: %s: %r" % (name, number, wrong, listed))
            return False
    print("%s: %s" % (name, ", ".join("%d %s" % (counts[what], what) for what in COUNTS)))
    return True


def main(words):
    """Tries all, with counts."""
    count, size = int(words[0]) if words else 40, int(words[1]) if len(words) > 1 else 300
    folder = tempfile.mkdtemp()
    top = os.path.join(folder, "net")
    os.mkdir(top)
    runner = running.Runner(PROGRAM, folder)
    passed = tried("small", small_nets(), top, runner)
    great = (great_net(random.Random("why %d" % number), size) for number in range(count))
    passed = tried("great", great, top, runner) and passed
    shutil.rmtree(folder)
    print("%d runs, the longest %.2f s of processor time, the largest %d kB; %s" % (
        runner.runs, runner.most_seconds, runner.most_kilobytes, "all passed" if passed else "FAILED"))
    return 0 if passed else 1


if __name__ == "__main__":
    sys.exit(main(sys.argv[1:]))
