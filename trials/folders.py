"""Runs the same commands on a base file and on a base folder. It compares their output, their status, their packets
and, by `convert`, the bases, byte for byte.

1. Random commands: postings (also of mails and stored messages), answers, tosses, scans, purges, and those that read.
   Tosses include known packets, cut ones, packets for another system and missing ones. Some commands are refused.
2. `list` and `convert` while commands change the folder: each time they read the base of one point in time.
3. A folder of another system, and folders that are no base folders.

Argument: how many lists of random commands (40).
"""
import os
import random
import re
import shutil
import subprocess
import sys
import tempfile

from lib import making
from lib.contents import PROGRAM, content_of, write
from lib.folder_station import COMMANDS, MOMENT, converted, expect, filled_station, finish, new_station, packets_in, run


class Pair:
    """A station with a base file and one with a base folder. Both run the same commands."""

    def __init__(self, number, folder):
        self.chance = random.Random("folders %d" % number)
        self.file, self.folder = (new_station(os.path.join(folder, name)) for name in ("file", "folder"))
        os.mkdir(os.path.join(self.folder, "base"))
        self.serial, self.plain, self.what = 0, 0, []

    def both(self, *words, given=b""):
        """Runs the command on both, and compares."""
        self.what.append(" ".join(words))
        one, other = (run(folder, *words, given=given) for folder in (self.file, self.folder))
        expect("%s: %r and not %r" % (self.what, other, one), one == other)
        out, there = (packets_in(os.path.join(folder, "out")) for folder in (self.file, self.folder))
        expect("%s: other packets" % self.what, out == there)
        return one

    def put_both(self, name, content):
        """The same file for both."""
        for folder in (self.file, self.folder):
            write(os.path.join(folder, name), content)

    def some_serial(self):
        """Mostly a new serial."""
        self.serial = self.chance.choice((self.serial, self.serial + 1, self.serial + 1, self.serial + 1))
        return self.chance.choice(("%08x" % self.serial, "%08x" % self.serial, "auto")) if self.serial > 3 \
            else "%08x" % self.serial

    def post(self):
        """A posting."""
        serial = self.some_serial()
        if serial == "auto":  # whose serial depends on the clock
            serial = "%08X" % (self.serial + 1000)
        tag = self.chance.choice(("TEST", "test", "OTHER", "NONE"))
        body = self.chance.choice((b"", b"Hello\n", b"a\r\nb\n", b"x" * 3000, b"\0"))
        self.both("post", "--area", tag, "--to", "All", "--from", "Ann", "--subject", self.chance.choice(("Hi", "y" * 72)),
                  "--serial", serial, "--at", MOMENT, "links", "base", given=body)

    def mail(self):
        """A mail that is posted, or a file that is no mail."""
        letter = b"To: All\r\nFrom: Ann <ann@example.org>\r\nSubject: Mail %d\r\nNewsgroups: %s\r\n\r\nText\r\n" % (
            self.serial, self.chance.choice((b"TEST", b"NONE", b"")))
        self.both("post", "--mail", "--serial", self.some_serial().replace("auto", "000fffff"), "--at", MOMENT, "links",
                  "base", given=letter)

    def reply(self):
        """An answer."""
        self.both("reply", "--from", "Cid", "--serial", self.some_serial().replace("auto", "00ffffff"), "--at", MOMENT,
                  self.chance.choice(("0", "1", "3", "99", "18446744073709551616", "x")), "links", "base", given=b"Yes\n")

    def toss(self):
        """Packets, new ones and known ones, and at times one that ends the run."""
        names = []
        for number in range(self.chance.randint(1, 3)):
            first = self.chance.choice((self.plain, self.plain, max(0, self.plain - 4)))
            count = self.chance.randint(0, 6)
            content = making.spread_packet(range(first, first + count), self.chance.choice((0, 50, 5000)), 2)
            if self.chance.random() < 0.5:
                content = making.plain_packet(range(first, first + count), 100)
            self.plain = max(self.plain, first + count)
            if self.chance.random() < 0.2:
                content = content[:self.chance.randrange(len(content))]
            elif self.chance.random() < 0.1:
                content = making.packet(making.UPLINK, making.DOWNLINKS[0], [])
            names.append("%d.pkt" % number)
            self.put_both(names[-1], content)
        if self.chance.random() < 0.1:
            names.append("none.pkt")
        each = ["--each"] if self.chance.random() < 0.5 else []
        self.both("toss", *each, "links", "base", *names)

    def scan(self):
        """A scan, at times into a folder that does not exist."""
        self.both("scan", "--at", MOMENT, "links", "base", self.chance.choice(("out",) * 9 + ("none",)))

    def purge(self):
        """A purge."""
        self.both("purge", "links", "base")

    def look(self):
        """The commands that read the bases."""
        self.both("list", *self.chance.choice(((), ("--area", "other"), ("--from", "2"))), "base")
        self.both("export", *self.chance.choice(((), ("--json",), ("--purged",), ("--area", "TEST"))), "base")

    def faulty(self):
        """A link file with a fault, and a missing one."""
        self.both("scan", "--at", MOMENT, self.chance.choice(("faulty.links", "none")), "base", "out")

    def compare(self):
        """The two bases are equal."""
        file = content_of(os.path.join(self.file, "base"))
        expect("%s: the base" % self.what, converted(self.folder) == file)

    def turn(self):
        """Both are converted: the file becomes the folder's, the folder the file's."""
        old = os.path.join(self.folder, "old")
        shutil.rmtree(old, ignore_errors=True)
        os.rename(os.path.join(self.folder, "base"), old)
        os.mkdir(os.path.join(self.folder, "base"))
        shutil.copy(os.path.join(self.file, "base"), os.path.join(self.folder, "from"))
        ended = run(self.folder, "convert", "from", "base")
        listed = run(self.folder, "convert", "old", "again")
        expect("%s: converted, %r" % (self.what, ended), ended[0] == 0 and ended == listed)
        expect("%s: again" % self.what, content_of(os.path.join(self.folder, "again")) == content_of(
            os.path.join(self.folder, "from")))
        os.remove(os.path.join(self.folder, "again"))
        ended = run(self.folder, "convert", "from", "base")
        expect("%s: not into one that is not empty, %r" % (self.what, ended),
               ended == (3, b"", b"echonet: cannot use base\n"))

    def go(self, count):
        """Some random commands."""
        self.both("post", "--area", "TEST", "--to", "All", "--from", "Ann", "--subject", "First", "--serial", "ffffffff",
                  "--at", MOMENT, "links", "base")
        deeds = (self.post, self.post, self.mail, self.reply, self.toss, self.toss, self.toss, self.scan, self.scan,
                 self.purge, self.look, self.faulty, self.turn)
        for _ in range(count):
            self.chance.choice(deeds)()
            self.compare()


def side_by_side(count, folder):
    """Random commands on both."""
    for number in range(count):
        Pair(number, os.path.join(folder, "pair%d" % number)).go(40)
        shutil.rmtree(os.path.join(folder, "pair%d" % number))


# Prints a loop of commands that changes the base: each round posts a message, scans it and purges it.
CHANGES = """for i in $(seq 100 160); do
  "$0" post --area TEST --to All --from Ann --subject Hi --serial 00000$i --at %s links base < /dev/null
  "$0" scan --at %s links base out; "$0" purge links base
done""" % (MOMENT, MOMENT)


def moment_of(base):
    """How many messages a base file has, how many of them wait, and how many are scanned and not purged. The purged
    ones come first."""
    cursor, messages = making.read_base(base)
    purged = [message[0] in (2, 3) for message in messages]
    expect("the purged ones stand in front", purged == sorted(purged, reverse=True))
    return len(messages), len(messages) - cursor, cursor - sum(purged)


def beside(folder):
    """`list` and `convert` while commands change the folder."""
    station = filled_station(os.path.join(folder, "beside"))
    for name in ("scan", "purge"):
        expect("a %s first" % name, run(station, *COMMANDS[name])[0] == 0)
    with subprocess.Popen(["bash", "-c", CHANGES, PROGRAM], cwd=station, stdout=subprocess.DEVNULL) as changes:
        counts = []
        while changes.poll() is None:
            ended = run(station, "list", "base")
            expect("list while others run: %r" % (ended,), ended[0] == 0)
            counts.append(int(re.search(rb"end (\d+) messages", ended[1])[1]) if ended[0] == 0 else 0)
            base = converted(station)
            expect("convert while others run: %r" % (base[:3],), isinstance(base, bytes))
            if isinstance(base, bytes):
                count, waiting, scanned = moment_of(base)
                counts.append(count)
                expect("%d wait and %d are to be purged" % (waiting, scanned),
                       (waiting, scanned) in ((0, 0), (1, 0), (0, 1)))
    expect("no message is lost meanwhile", counts == sorted(counts))
    print("%d times read beside others" % len(counts), flush=True)


def others(folder):
    """Folders of another system, and folders that are no base folders."""
    station = filled_station(os.path.join(folder, "others"))
    held = converted(station)
    for words in COMMANDS.values():
        if words[0] != "toss":
            words = [word.replace("links", "other.links") for word in words]
            ended = run(station, *words)
            expect("%s: %r" % (words, ended), ended == (2, b"", b"echonet: F8 NotOwner 1:10/1\n"))
    expect("nothing has changed", converted(station) == held)
    stranger = os.path.join(station, "stranger")
    os.mkdir(stranger)
    write(os.path.join(stranger, "notes"), b"x")
    for words in (("list", "stranger"), *([*words[:-2], "links", "stranger"] for words in
                                          (COMMANDS["post"], COMMANDS["purge"]))):
        ended = run(station, *words)
        expect("%s: %r" % (words, ended), ended == (2, b"", b"echonet: F1 NotBase\n"))
    expect("its file stays alone", packets_in(stranger) == {"notes": b"x"})


def main(words):
    """All of it."""
    count = int(words[0]) if words else 40
    with tempfile.TemporaryDirectory(prefix="echonet-trials.") as folder:
        side_by_side(count, folder)
        print("%d lists of commands" % count, flush=True)
        beside(folder)
        others(folder)
    return finish("folders")


if __name__ == "__main__":
    sys.exit(main(sys.argv[1:]))
