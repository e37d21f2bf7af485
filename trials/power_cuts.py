"""Cuts the power under the program and echonet-station, and judges what the disk has then.

Stations on one disk post, toss, scan, purge, convert and export, on base files and base folders, or by echonet-station,
also with packet passwords and zip bundles.
At the same time another program flushes files of its own. At each cut (lib/power.py) the file system is mounted again.

- What ended with status 0 is there, whole and once.
- What was running is there wholly or not at all.
- No message is twice in a base or in the packets under their names.
- The next commands work without help (lib/judge.py).

Some disks are flushed whole before some files get their names: after that, btrfs keeps no order among unflushed
names. At last all is done with an `fsync` that does nothing. There cuts have to do harm.
Arguments: how many cuts (2000), and the file systems (ext4 xfs btrfs). SEED makes the same again. ONLY names one kind
of stations (commands, scripts, peered).
"""
import io
import os
import random
import shutil
import struct
import subprocess
import sys
import tempfile
import threading
import time
import zipfile
from os.path import join
from typing import NamedTuple

import jam
from lib import making, power
import stored
from lib.contents import PROGRAM, TOP
from lib.judge import LINKED, LINKS, Judge, Message, content, files_of, number_of, packet_of, texts_of

NO_FLUSH = b"int fsync(int f) { (void)f; return 0; }\nint fdatasync(int f) { (void)f; return 0; }\n"

# Flushes the whole disk before the first file of a process gets a name, and before each third one after that.
WHOLE_FLUSH = br"""
#define _GNU_SOURCE
#include <fcntl.h>
#include <sys/syscall.h>
#include <unistd.h>

static void flush_all(void) {
  static int count;
  if (count++ % 3 == 0) {
    int disk = open(".", O_RDONLY);
    syncfs(disk);
    close(disk);
  }
}

int linkat(int a, const char *from, int b, const char *to, int how) {
  flush_all();
  return syscall(SYS_linkat, a, from, b, to, how);
}

int link(const char *from, const char *to) { return linkat(AT_FDCWD, from, AT_FDCWD, to, 0); }

int renameat2(int a, const char *from, int b, const char *to, unsigned how) {
  flush_all();
  return syscall(SYS_renameat2, a, from, b, to, how);
}

int renameat(int a, const char *from, int b, const char *to) { return renameat2(a, from, b, to, 0); }
int rename(const char *from, const char *to) { return renameat2(AT_FDCWD, from, AT_FDCWD, to, 0); }
"""


class Step(NamedTuple):
    """A step of a station: its word, the messages that it brings, and a name."""
    station: object
    what: str
    messages: list = []
    name: str = ""


def make(path, given):
    """Makes a file as a mailer does: afterwards it is on the disk under its name. Its time is an hour ago: nothing waits
    for a program that may still write it."""
    with open(path + ".part", "wb") as file:
        file.write(given)
        file.flush()
        os.utime(path + ".part", (time.time() - 3600, time.time() - 3600))
        os.fsync(file.fileno())
    os.rename(path + ".part", path)
    flush(os.path.dirname(path))


def flush(path, is_all=False):
    """Flushes a folder, or its whole disk."""
    found = os.open(path, os.O_RDONLY)
    (power.LIBC.syncfs if is_all else os.fsync)(found)
    os.close(found)


def all_of(steps):
    """The messages of these steps."""
    return [message for step in steps for message in step.messages]


def before_last(steps, what):
    """The steps before the last one with this word."""
    return steps[:max((number for number, step in enumerate(steps) if step.what == what), default=0)]


class Plain:
    """A station whose commands run without echonet-station."""
    chances = {"post": 8, "toss": 5, "scan": 4, "purge": 1, "convert": 2}
    comes = {"post": "post", "toss": "toss"}  # how the messages of a step are made
    passing = [("", ".new"), ("out", ".new"), ("msg", ".new")]  # files that do not stay, by folders and ends of names

    def __init__(self, name, is_folder):
        self.name, self.is_folder = name, is_folder

    def begin(self, folder):
        """Makes its files."""
        for name in ("out", "msg", "inbound", "packets", "outbound", "read"):
            os.makedirs(join(folder, name))
        make(join(folder, "links"), LINKS)
        if self.is_folder:
            os.mkdir(join(folder, "base"))

    def step(self, chance, serials, number, is_first=False):
        """Its next step."""
        what = next(iter(self.chances)) if is_first else chance.choices(list(self.chances), self.chances.values())[0]
        way = self.comes.get(what)
        count = {None: 0, "toss": chance.choice((1, 2, 8))}.get(way, 1)
        messages = [Message(way, next(serials), chance.choice((80, 300, 3000, 9000))) for _ in range(count)]
        return Step(self, what, messages, "copy.%d.%s" % (number, chance.choice(("file", "folder"))))

    def do(self, judge, folder, step, wanted=0):
        """Does a step, and returns its status."""
        has_base = os.path.exists(join(folder, "base"))
        if step.what not in ("post", "toss", "scan", "purge") and not has_base:
            return 0
        if step.what == "convert":
            if step.name.endswith("folder"):
                os.makedirs(join(folder, step.name), exist_ok=True)
            return judge.run(folder, PROGRAM, "convert", "base", step.name, wanted=wanted)
        words, given = judge.words(step.what, step.messages)
        return judge.run(folder, PROGRAM, *words, given=given, wanted=wanted)

    def look(self, judge, folder, done, opened):
        """Looks at the contents of the disk after these steps. The opened step may have ended at any point."""
        may = all_of(done) + opened.messages
        seen = judge.texts(self.name + ": base", texts_of(join(folder, "base")), all_of(done), may)
        is_whole = len({message.serial in seen for message in opened.messages}) < 2
        judge.expect("%s: a part of %s" % (self.name, opened.what), is_whole)
        self.look_beside(judge, folder, done, opened)

    def look_beside(self, judge, folder, done, opened):
        """Looks at packets and copies."""
        packets, may = files_of(join(folder, "out"), ".pkt"), all_of(done) + opened.messages
        judge.packets(self.name, packets, all_of(before_last(done, "scan")), may)
        for number, step in enumerate(done):
            if step.what == "convert":
                wanted = all_of(done[:number])
                judge.texts("%s: %s" % (self.name, step.name), texts_of(join(folder, step.name)), wanted, wanted)

    def again(self, judge, folder, done, opened):
        """Continues the step that was cut. Returns the steps that are done."""
        base = join(folder, "base")
        seen = {number_of(text) for text in texts_of(base)}
        if not opened.what or opened.messages and opened.messages[0].serial in seen:
            return done + [opened]
        target = join(folder, opened.name)
        is_made = opened.what == "convert" and (bool(texts_of(target)) if os.path.isdir(target) else os.path.exists(target))
        self.do(judge, folder, opened, 3 if is_made and os.path.exists(base) else 0)
        return done + [opened]

    def fresh(self, serials):
        """Steps that have to work after a cut."""
        steps = [Step(self, way, [Message(way, next(serials), 300)]) for way in ("post", "toss")]
        return steps + [Step(self, what) for what in ("scan", "purge", "list")]

    def mend(self, judge, folder, done, opened, serials):
        """Continues after a cut."""
        done = self.again(judge, folder, done, opened)
        for step in self.fresh(serials):
            self.do(judge, folder, step)
            done = done + [step]
        self.look(judge, folder, done, Step(self, ""))
        left = [name for place, end in self.passing for name in files_of(join(folder, place), end) if name[:5] != "copy."]
        judge.expect("%s: left %s" % (self.name, left), not left)


class Exports(Plain):
    """A station that exports to readers."""
    chances = {"post": 8, "toss": 3, "msg": 4, "jam": 4, "mbox": 1}

    def look_beside(self, judge, folder, done, opened):
        may = all_of(done) + opened.messages
        look_at_stored(judge, self.name, join(folder, "msg"), all_of(before_last(done, "msg")), may)
        if not all_of(before_last(done, "jam")):
            return
        try:
            texts = [b"\r" + message.text for message in jam.Jam(join(folder, "jam")).messages]
        except (SystemExit, struct.error) as fault:
            # There may be entries of zeros during a run.
            judge.expect("%s: jam: %r" % (self.name, fault), opened.what == "jam")
            return
        judge.texts(self.name + ": jam", texts, all_of(before_last(done, "jam")), may,
                    lambda message: b"".join(line + b"\r" for line in [b"", *message.kept()[1:]]))

    def fresh(self, serials):
        return super().fresh(serials)[:1] + [Step(self, what) for what in ("msg", "jam", "mbox", "list")]


def look_at_stored(judge, what, folder, wanted, may):
    """Looks at stored messages."""
    files = files_of(folder, ".msg").values()
    texts = [b"AREA:TEST\r" + stored.Stored(file).text if len(file) > 190 else file for file in files]
    judge.texts("%s: %s" % (what, os.path.basename(folder)), texts, wanted, may)


class Scripts(Plain):
    """A station that echonet-station runs, with a mailer and an editor that flush their files."""
    chances = {"arrive": 4, "toss": 3, "scan": 3, "mail": 2, "write": 3, "read": 3}
    comes = {"arrive": "toss", "write": "write"}
    passing = [("inbound", ".pkt"), ("tossing", ""), ("scanned", ""), ("bad", ""), ("outbound", (".bsy", ".hold")),
               ("read", ("posting", "~.new"))]
    words = {"toss": (".", "toss"), "scan": (".", "scan"), "read": (".", "read", "TEST", "read")}

    def __init__(self, name, is_folder):
        super().__init__(name, is_folder)
        self.mailed = {}  # the packets that the mailer sent, and by which step

    def do(self, judge, folder, step, wanted=0):
        if step.what in self.words:
            return judge.run(folder, join(TOP, "station", "echonet-station"), *self.words[step.what])
        if step.what == "arrive":
            make(join(folder, "inbound", "%d.pkt" % step.messages[0].serial), packet_of(step.messages))
        elif step.what == "write":
            number = max((int(name[:-4]) for name in files_of(join(folder, "read"), ".msg")), default=1) + 1
            fields = b"".join(field.ljust(size, b"\0") for field, size in ((b"Ann", 36), (b"All", 36), (b"Hi", 72), (making.DATE, 42)))
            make(join(folder, "read", "%d.msg" % number), fields + b"\0\1\0\0" + b"\r".join(step.messages[0].body()) + b"\r\0")
        elif step.what == "mail":
            self.mail(folder, step)
        return 0

    def mail(self, folder, step):
        """Sends the packets that the flow files name, as a mailer does."""
        packets, outbound = (join(folder, name) for name in ("packets", "outbound"))
        for flow, lines in files_of(outbound, ".flo").items():
            for line in lines.decode().split():
                path = join(packets, os.path.basename(line))
                if os.path.exists(path):
                    self.mailed[os.path.basename(path)] = step, content(path)
                    os.remove(path)
            flush(packets)
            os.remove(join(outbound, flow))
        flush(outbound)

    def filed(self, done):
        """The messages that the base has to have: those made before a run that files them."""
        runs = (("toss", "toss"), ("write", "read"))
        return [message for way, what in runs for message in all_of(before_last(done, what)) if message.way == way]

    def look(self, judge, folder, done, opened):
        may = all_of(done) + opened.messages
        judge.texts(self.name + ": base", texts_of(join(folder, "base")), self.filed(done), may)
        packets = {name: packet for name, (step, packet) in self.mailed.items() if step in done or step is opened}
        packets.update(files_of(join(folder, "packets"), ".pkt"))
        judge.packets(self.name, self.undressed(judge, packets), self.filed(before_last(done, "scan")), may)

    def undressed(self, _, packets):
        """The packets as a scan made them."""
        return packets

    def again(self, judge, folder, done, opened):
        texts = {number_of(text) for text in texts_of(join(folder, "base"))}
        for place in ("inbound", "tossing", "read"):
            for file in files_of(join(folder, place), (".pkt", ".msg")).values():
                came = b"\r" + file.replace(b"\0", b"\r")
                texts.update(message.serial for message in opened.messages if b"\r%08x x" % message.serial in came)
        # A message on its way to this disk may be missing.
        return done + [opened] if not opened.messages or opened.messages[0].serial in texts else done

    def fresh(self, serials):
        return [Step(self, what) for what in ("toss", "scan", "read", "toss", "scan")]

    def mend(self, judge, folder, done, opened, serials):
        for name in files_of(join(folder, "outbound"), ".bsy"):
            if next(serials) % 2:  # the number in it now belongs to another process
                with open(join(folder, "outbound", name), "w", encoding="ascii") as file:
                    file.write("%d\n" % os.getpid())
        super().mend(judge, folder, done, opened, serials)
        lines = b"".join(files_of(join(folder, "outbound"), ".flo").values()).decode()
        unnamed = [name for name in files_of(join(folder, "packets"), "") if name not in lines]
        judge.expect("%s: no flow file names %s" % (self.name, unnamed), not unnamed)
        filed = all_of(done + [opened])
        look_at_stored(judge, self.name, join(folder, "read"), self.filed(done + [Step(self, what) for what in ("toss", "read")]), filed)


def disturb(at, chance, stop):
    """Another program that writes and flushes files of its own on the disk."""
    with open(join(at, "other"), "wb", buffering=0) as file:
        while not stop.wait(chance.choice((0, 0.001, 0.004, 0.02))):
            file.seek(0 if file.tell() > 1 << 20 else file.tell())
            file.write(bytes(chance.choice((100, 5000))))
            if chance.random() < 0.8:
                os.fsync(file.fileno())
            else:
                flush(at, True)


def fill(judge, disk, stations, steps, chance, is_quiet):
    """Does the steps on a disk, with marks in its log. Mostly another program writes at the same time."""
    with disk.recording() as at:
        for station in stations:
            station.begin(join(at, station.name))
        flush(at, True)
        disk.mark("begin")
        stop = threading.Event()
        if is_quiet:
            stop.set()
        other = threading.Thread(target=disturb, args=(at, random.Random(chance.random()), stop))
        other.start()
        for number, step in enumerate(steps):
            disk.mark("%d" % number)
            status = step.station.do(judge, join(at, step.station.name), step)
            disk.mark("%d %d" % (number, status))
        stop.set()
        other.join()


def judge_cut(judge, at, stations, steps, marks, chance, serials):
    """Judges each station after a cut. Then the running station and another one continue."""
    ended = {int(mark.split()[0]) for mark in marks if mark.endswith(" 0") and mark != "0"}
    opened = steps[int(marks[-1])] if marks[-1].isdigit() else None
    mended = [opened.station if opened else stations[0], chance.choice(stations)]
    for station in stations:
        done = [step for number, step in enumerate(steps) if number in ended and step.station is station]
        running = opened if opened and opened.station is station else Step(station, "")
        folder = join(at, station.name)
        try:
            station.look(judge, folder, done, running)
            if station in mended:
                station.mend(judge, folder, done, running, serials)
        except (OSError, ValueError, IndexError, struct.error, SystemExit) as fault:
            judge.expect("%s: cannot be read: %r" % (station.name, fault), False)


def session(kind, stations, chance, count, cuts, is_lazy=False):
    """Fills a disk by so many steps, and cuts its power so many times. Returns how many cuts did harm."""
    began, serials, bad = time.time(), iter(range(1, 1 << 30)), 0
    with tempfile.TemporaryDirectory(prefix="echonet-power.", dir="/dev/shm" if os.path.isdir("/dev/shm") else None) as work:
        judge, disk = Judge(work), power.Disk(join(work, "disk"), kind)
        steps = [station.step(chance, serials, number, True) for number, station in enumerate(stations)]
        steps += [chance.choice(stations).step(chance, serials, number) for number in range(len(steps), count)]
        is_whole = not is_lazy and chance.random() < 0.4 and bool(shutil.which("cc"))
        judge.preload = in_front(work, NO_FLUSH if is_lazy else WHOLE_FLUSH) if is_lazy or is_whole else ""
        fill(judge, disk, stations, steps, chance, is_lazy or is_whole or chance.random() < 0.2)
        judge.preload = ""
        if judge.faults:
            raise SystemExit("%s: before any cut: %s" % (kind, judge.faults))
        for number, (marks, image) in enumerate(disk.cuts(chance, cuts)):
            with power.mounted(kind, image, disk.at):
                judge_cut(judge, disk.at, stations, steps, marks, chance, serials)
            bad += bool(judge.faults)
            running = steps[int(marks[-1])].what if marks[-1].isdigit() else "nothing"
            for fault in [] if is_lazy else judge.faults[:4]:
                print("failed: %s, cut %d, %s runs: %s" % (kind, number, running, fault), file=sys.stderr, flush=True)
            judge.faults.clear()
    print("%s: %d steps of %s, %d cuts, %d with harm%s (%d s)" % (kind, count, ", ".join(station.name for station in stations), cuts,
          bad, ", without flushes" * is_lazy + ", flushed before names" * is_whole, time.time() - began), flush=True)
    return bad


def in_front(work, source):
    """Compiles a library that is loaded before the C library."""
    path = join(work, "in_front.so")
    subprocess.run(["cc", "-shared", "-fPIC", "-x", "c", "-o", path, "-"], input=source, check=True)
    return path


class Peered(Scripts):
    """The same with a file `peers`: packets have passwords, and half of those that arrive are in zip bundles."""
    passing = Scripts.passing + [("inbound", ".mo0"), ("gate", ""), ("letters", "")]
    password = b"secret\0\0"

    def begin(self, folder):
        super().begin(folder)
        make(join(folder, "peers"), b"".join(b"PEER %s PASSWORD secret\n" % making.shown(link).encode() for link in LINKED))

    def do(self, judge, folder, step, wanted=0):
        if step.what != "arrive":
            return super().do(judge, folder, step, wanted)
        packet = packet_of(step.messages)
        packet = packet[:26] + self.password + packet[34:]
        serial = step.messages[0].serial
        if serial % 2:
            make(join(folder, "inbound", "%08x.pkt" % serial), packet)
        else:
            bundle = io.BytesIO()
            with zipfile.ZipFile(bundle, "w", zipfile.ZIP_DEFLATED) as archive:
                archive.writestr("%08x.pkt" % serial, packet)
            make(join(folder, "inbound", "%08x.mo0" % serial), bundle.getvalue())
        return 0

    def undressed(self, judge, packets):
        for name, packet in packets.items():
            judge.expect("%s: the password of %s" % (self.name, name), packet[26:34] == self.password)
        return {name: packet[:26] + bytes(8) + packet[34:] for name, packet in packets.items()}

    def again(self, judge, folder, done, opened):
        if not opened.messages or opened.what != "arrive":
            return super().again(judge, folder, done, opened)
        serial = opened.messages[0].serial
        name = "%08x.%s" % (serial, "pkt" if serial % 2 else "mo0")
        return done + [opened] if os.path.exists(join(folder, "inbound", name)) else done


# Stations whose commands run alone, those of echonet-station, and the steps of each disk.
STATIONS = {
    "commands": (120, lambda: [Plain("file", False), Plain("folder", True), Exports("out_of_file", False), Exports("out_of_folder", True)]),
    "scripts": (60, lambda: [Scripts("scripts_file", False), Scripts("scripts_folder", True)]),
    "peered": (60, lambda: [Peered("peered_file", False), Peered("peered_folder", True)])}
SHARES = {"commands": 0.7, "scripts": 0.15, "peered": 0.15}


def main(words):
    """Half of the cuts are on the first file system, and three in ten under echonet-station. Then there are some without
    flushes."""
    why, there = power.enter(), power.kinds(words[1:])
    if why or not there:
        print("power_cuts.py: skipped: %s" % (why or "no file system can be made"))
        return 0
    count, bad, done = int(words[0]) if words else 2000, 0, 0
    seed = int(os.environ.get("SEED", random.randrange(2 ** 32)))
    print("seed %d" % seed)
    for kind in there:
        share = count if len(there) == 1 else count / 2 if kind == there[0] else count / 2 / (len(there) - 1)
        for what, (steps, stations) in STATIONS.items():
            if os.environ.get("ONLY", what) != what:
                continue
            left = round(share * SHARES[what])
            while left > 0:
                some, chance = min(left, 125), random.Random("%d %s %s %d" % (seed, kind, what, left))
                bad += session(kind, stations(), chance, steps, some)
                left, done = left - some, done + some
    harm = session(there[0], STATIONS["commands"][1](), random.Random(seed), 60, 40, True) if shutil.which("cc") else None
    print("no cuts without flushes: there is no C compiler" if harm is None else "without flushes %d of 40 cuts did harm" % harm)
    print("power_cuts.py: %d cuts on %s, %d with harm" % (done, ", ".join(there), bad))
    return 1 if bad or harm is not None and harm < 10 else 0


if __name__ == "__main__":
    sys.exit(main(sys.argv[1:]))
