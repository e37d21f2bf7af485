"""The messages of the program to a terminal: that it waits for a lock, the progress of a command, and why one
stopped.

The program runs with standard error on a terminal of this trial (a pty). With a pipe it has to print none of these
messages. The trial computes the screen from the bytes, as a terminal shows them.
"""
import fcntl
import os
import pty
import re
import select
import shutil
import signal
import subprocess
import sys
import tempfile
import time

from lib import making
from lib.contents import PROGRAM, TOP

LINKS = making.link_file(making.OWN, [("TEST", [making.UPLINK, *making.DOWNLINKS])])
MAIL = b"From: Ann\nTo: All\nSubject: Hi\nNewsgroups: TEST\n\nHello\n"
LONGEST, MANY, MOST = 20, 60_000, 3
ALL = MANY * MOST
TOSS = ["toss", "many.links", "many.base", *("%d.pkt" % number for number in range(MOST))]
LIST = ["list", "--from", str(ALL - 1), "many.base"]
SCAN = ["scan", "--at", making.STAMP, "many.links", "many.base", "many.out"]
SCAN_FOLDER = [*SCAN[:-2], "many.folder", "many.out"]
POSTED = 40_000
REPLAY = ["replay", "many.script", "many.links"]
MESSAGES, PACKETS = rb"echonet: message (\d+) of (\d+)", rb"echonet: packet (\d+) of (\d+)"
EVENTS = rb"echonet: event (\d+) of (\d+)"


class Trial:
    """What held, and what did not."""

    def __init__(self):
        self.passed, self.failed = 0, 0

    def expect(self, what, held, found=b""):
        """Counts one thing."""
        self.passed, self.failed = self.passed + bool(held), self.failed + (not held)
        if not held:
            print("failed:", what, found[-400:], file=sys.stderr)


def read_for(end, seconds, last=None):
    """Reads a descriptor until its other end is closed, the bytes end so, or the time is over."""
    came, until = b"", time.monotonic() + seconds
    while not (last and came.endswith(last)) and select.select([end], [], [], max(0, until - time.monotonic()))[0]:
        try:
            more = os.read(end, 65536)
        except OSError:
            break
        if not more:
            break
        came += more
    return came


def screen(came):
    """The lines that a terminal shows of some bytes."""
    lines, column = [[]], 0
    for byte in came.decode():
        if byte == "\r":
            column = 0
        elif byte == "\n":
            lines.append([])
        else:
            lines[-1][column:column + 1] = byte
            column += 1
    return ["".join(line).rstrip() for line in lines]


class Started:
    """A run whose standard error is a terminal, or a pipe. With `both`, standard output goes to the same terminal."""

    def __init__(self, words, given=b"", terminal=True, both=False):
        self.end, other = pty.openpty() if terminal else os.pipe()
        self.out = tempfile.TemporaryFile()
        self.process = subprocess.Popen(
            [PROGRAM, *words], stdin=subprocess.PIPE, stdout=other if both else self.out, stderr=other)
        os.close(other)
        self.process.stdin.write(given)
        self.process.stdin.close()

    def ended(self):
        """Its status, the bytes on standard error, and its other output."""
        came = read_for(self.end, LONGEST)
        status = self.process.wait(LONGEST)
        os.close(self.end)
        self.out.seek(0)
        return status, came, self.out.read()


def locked(path):
    """The lock of a file, held by this trial."""
    held = os.open(path, os.O_RDONLY)
    fcntl.flock(held, fcntl.LOCK_EX)
    return held


def try_lock(trial, name, words, path, given=b""):
    """One command while its lock is held: on a terminal, with a pipe. Then with a free lock."""
    told = b"echonet: waiting for the lock of %s\r\n" % path
    for terminal in (True, False):
        held = locked(path)
        run = Started(words, given, terminal)
        early = read_for(run.end, LONGEST, b"\n") if terminal else b""
        early += read_for(run.end, 0.2)
        trial.expect("%s waits" % name, run.process.poll() is None)
        os.close(held)
        status, late, _ = run.ended()
        trial.expect("%s goes on when the lock is free" % name, status == 0, late)
        trial.expect("%s says so on a terminal, once" % name, early + late == (told if terminal else b""), early + late)
    status, came, _ = Started(words, given).ended()
    trial.expect("%s prints nothing if the lock is free" % name, (status, came) == (0, b""), came)


def locks(trial):
    """Each command that takes a lock."""
    stamp = ["--at", making.STAMP]
    post = ["--serial", "auto", *stamp, "links", "base"]
    with open("links", "wb") as links, open("one.pkt", "wb") as packet:
        links.write(LINKS)
        packet.write(making.plain_packet([1], 10))
    os.mkdir("out")
    os.mkdir("read")
    names = ["--area", "TEST", "--to", "All", "--from", "Ann", "--subject", "Hi"]
    try_lock(trial, "post", ["post", *names, *post], b"links", b"Hello\n")
    try_lock(trial, "post --mail", ["post", "--mail", *post], b"links", MAIL)
    try_lock(trial, "reply", ["reply", "--from", "Ann", "--serial", "auto", *stamp, "0", "links", "base"], b"links")
    try_lock(trial, "toss", ["toss", "links", "base", "one.pkt"], b"links")
    try_lock(trial, "scan", ["scan", *stamp, "links", "base", "out"], b"links")
    try_lock(trial, "purge", ["purge", "links", "base"], b"links")
    try_lock(trial, "purge", ["purge", "links", "base"], b"base")
    try_lock(trial, "export --msg", ["export", "--msg", "read", "--area", "TEST", "base"], b"read")
    os.rename("links", "a\x1b[2Jlinks")
    held = locked("a\x1b[2Jlinks")
    run = Started(["purge", "a\x1b[2Jlinks", "base"])
    early = read_for(run.end, LONGEST, b"\n")
    os.close(held)
    trial.expect("a path cannot steer the terminal", early.endswith(b" of a\\x1b[2Jlinks\r\n"), early)
    trial.expect("and the run ends well", run.ended()[0] == 0)


def has_open(process, name):
    """Whether a process has a file of this name open."""
    folder = "/proc/%d/fd" % process
    try:
        return any(os.readlink(os.path.join(folder, each)).endswith("/" + name) for each in os.listdir(folder))
    except OSError:
        return False


def slowed(words, name, terminal=True, both=False):
    """A run that is stopped for a while after it has opened a file of this name, so that it takes longer than a
    second."""
    run = Started(words, b"", terminal, both)
    while not has_open(run.process.pid, name) and run.process.poll() is None:
        time.sleep(0.001)
    run.process.send_signal(signal.SIGSTOP)
    time.sleep(1.1)
    run.process.send_signal(signal.SIGCONT)
    return run.ended()


def tossed(terminal, both=False):
    """A slow toss of many messages."""
    put_base(0)
    return slowed(TOSS, "0.pkt", terminal, both)


def listed(terminal, both=False):
    """A slow list of the last message of many."""
    return slowed(LIST, "many.base", terminal, both)


def scanned(terminal, both=False):
    """A slow scan of many messages."""
    put_base(ALL)
    clear_out()
    return slowed(SCAN, "many.base", terminal, both)


def try_folder(trial):
    """A scan of many messages of a base folder. It begins late, since its link file is locked for a while."""
    put_base(ALL)
    shutil.rmtree("many.folder", ignore_errors=True)
    os.mkdir("many.folder")
    subprocess.run([PROGRAM, "convert", "many.base", "many.folder"], check=True, stdout=subprocess.DEVNULL)
    clear_out()
    held = locked("many.links")
    run = Started(SCAN_FOLDER)
    time.sleep(1.1)
    os.close(held)
    status, came, out = run.ended()
    told = told_in(came, MESSAGES)
    trial.expect("a scan of a folder ends well", (status, out) == (0, sent_lines()), out)
    trial.expect("a scan of a folder prints its progress", told and {each[1] for each in told} == {ALL}, came)
    trial.expect("a scan of a folder goes on", told == sorted(told) and told[-1][0] <= ALL, came)


def replayed(terminal, both=False):
    """A slow replay of many postings: its script is a pipe, and nothing is written to it for a while."""
    os.mkfifo("many.script")
    run = Started(REPLAY, b"", terminal, both)
    time.sleep(1.1)
    put_script(POSTED)
    ended = run.ended()
    os.remove("many.script")
    return ended


def put_script(count):
    """Writes a script of so many postings."""
    with open("many.script", "wb") as script:
        script.write(b"".join(b"POST 0 TEST %08x\n" % number for number in range(count)))


def clear_out():
    """Makes an empty folder for the packets of scans."""
    shutil.rmtree("many.out", ignore_errors=True)
    os.mkdir("many.out")


def put_base(count):
    """Makes a base of so many messages, none of which was scanned."""
    with open("many.base", "wb") as base:
        base.write(making.plain_base(range(count), 100, 0))


def put_packets(count):
    """Makes packets of so many messages each."""
    for number in range(MOST):
        with open("%d.pkt" % number, "wb") as packet:
            packet.write(making.plain_packet(range(number * count, (number + 1) * count), 100))


def told_in(came, form):
    """The numbers in the lines of this form, one after another."""
    return [tuple(map(int, each)) for each in re.findall(rb"\r" + form + rb" *(?=\r)", came)]


def try_slow(trial, name, run, forms, lines, may=None):
    """One slow command. Its messages have one of these forms, each with the greatest number in it, and it prints
    these lines. It may also print messages of the last form. Then its numbers may begin again once, as a scan reads
    twice."""
    status, came, out = run(True)
    trial.expect("%s ends well" % name, (status, out) == (0, lines), out)
    left = came
    for form, most in forms:
        told = told_in(came, form)
        trial.expect("%s prints its progress" % name, told and {each[1] for each in told} == {most}, came)
        back = sum(1 for one, other in zip(told, told[1:]) if other < one)
        trial.expect("%s goes on" % name, back <= (1 if may else 0) and all(each[0] <= most for each in told), came)
        left = re.sub(rb"\r" + form + rb" *\r", b"", left)
    if may:
        told = told_in(came, may[0])
        trial.expect("%s exceeds no number" % name, all(one <= most == may[1] for one, most in told), came)
        left = re.sub(rb"\r" + may[0] + rb" *\r", b"", left)
    trial.expect("%s prints nothing else" % name, not re.sub(rb"\r *\r", b"", left), came)
    trial.expect("%s removes the line" % name, screen(came) == [""], came)
    status, came, _ = run(True, both=True)
    trial.expect("the screen has only the output of %s" % name, screen(came) == lines.decode().split("\n"), came)
    trial.expect("and %s printed its progress" % name, b"echonet: " in came, came)
    trial.expect("%s prints nothing to a pipe" % name, run(False) == (0, b"", lines))


def progress(trial):
    """The progress of a command."""
    with open("many.links", "wb") as links:
        links.write(LINKS)
    put_packets(MANY)
    line = b"filed %d known 0 notecho 0 badtag 0 noarea 0 notlinked 0\n" % MANY
    try_slow(trial, "toss", tossed, [(PACKETS + rb", (?:\d+)%", MOST)], line * MOST)
    put_base(ALL)
    try_slow(trial, "list", listed, [(MESSAGES, ALL)], listed_last())
    try_slow(trial, "scan", scanned, [(MESSAGES, ALL)], sent_lines(), (PACKETS, len(making.DOWNLINKS)))
    try_folder(trial)
    try_slow(trial, "replay", replayed, [(EVENTS, POSTED)],
             b"system 1:10/1 TEST filed %d waiting %d\npackets 0 undelivered 0\nsettled no\n" % (POSTED, POSTED))
    put_packets(1)
    put_script(1)
    clear_out()
    put_base(0)
    for words in (TOSS, LIST, SCAN, REPLAY):
        trial.expect("a short %s prints nothing" % words[0], Started(words).ended()[:2] == (0, b""))


def notes(trial):
    """The note on a fault: on a terminal, and with --explain."""
    fault, note = b"echonet: cannot use two.bsae", b"echonet: note: two.bsae: no such file"
    for words, terminal, lines in (
            (["list", "two.bsae"], True, [fault, note]),
            (["list", "two.bsae"], False, [fault]),
            (["list", "--explain", "two.bsae"], False, [fault, note])):
        status, came, out = Started(words, b"", terminal).ended()
        trial.expect("a note of %s" % words, (status, came.split(b"\r\n" if terminal else b"\n"), out)
                     == (3, [*lines, b""], b""), came)
    put_base(0)
    os.chmod("many.base", 0)
    run = subprocess.run([*as_other(), "list", "--explain", "many.base"], stderr=subprocess.PIPE, check=False)
    trial.expect("a base of another user", (run.returncode, run.stderr) == (
        3, b"echonet: cannot use many.base\nechonet: note: many.base: permission denied\n"), run.stderr)
    os.remove("many.base")


def as_other():
    """The program, run by a user whom modes of files bind: the user of this trial, or `nobody` instead of root."""
    if os.getuid():
        return [PROGRAM]
    shutil.copy(PROGRAM, "program")
    os.chmod(".", 0o755)
    return ["setpriv", "--reuid", "65534", "--regid", "65534", "--clear-groups", os.path.abspath("program")]


def listed_last():
    """The output of `list` for the last of the messages."""
    shown = b"".join(b"line %s\n" % line.replace(b"\x01", rb"\x01") for line in making.plain_kept(ALL - 1, 100))
    return b"message %d area TEST from 1:10/2 waiting\ndate %s\\x00\nto All\nfrom Ann\nsubject Hi\n" % (
        ALL - 1, making.DATE[:19]) + shown + b"seen 2 path 1\nend %d messages, %d waiting\n" % (ALL, ALL)


def sent_lines():
    """The output of `scan` for the packets."""
    sizes = [len(making.scanned_packet(link, range(ALL), 100)) for link in making.DOWNLINKS]
    return "".join("packet %s %d messages %d bytes\n" % (making.shown(link), ALL, size)
                   for link, size in zip(making.DOWNLINKS, sizes)).encode()


def main():
    """Runs the trial in a folder of its own."""
    trial = Trial()
    with tempfile.TemporaryDirectory(prefix="echonet-trials.") as folder:
        os.chdir(folder)
        locks(trial)
        progress(trial)
        notes(trial)
        os.chdir(TOP)
    print("terminal: %d passed, %d failed" % (trial.passed, trial.failed))
    return trial.failed > 0


if __name__ == "__main__":
    sys.exit(main())
