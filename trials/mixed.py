"""Many commands at once on one station, some of them killed at any time. Then lib/judge.py looks at the result.

The commands post, toss, scan, purge, list, export and convert, on a base file and on a base folder. They run alone,
while the base is converted to the other kind under the lock of the link file, and while the link file is replaced.
What a command with status 0 did is there once. What a killed command did is there once or not at all. No command is
refused, and each packet is whole. Arguments: how many seconds (20), how many commands at once (8). SEED makes the
same choices again.
"""
import os
import random
import subprocess
import sys
import tempfile
import threading
import time

from lib.contents import PROGRAM
from lib.judge import LINKS, Judge, Message, files_of, number_of, texts_of

CHANCES = {"post": 8, "toss": 4, "scan": 4, "purge": 2, "list": 2, "mbox": 1, "convert": 1}
# The commands of docs/REFERENCE.md, in both directions.
MOVE = """if [ -d base ]; then rm -f new; else rm -rf new && mkdir new; fi &&
  "$0" convert base new && mv base base.old && mv new base && rm -rf base.old"""


class Mixed:
    """A station on which many commands run."""

    def __init__(self, judge, folder, change):
        self.judge, self.folder, self.change = judge, folder, change
        self.done, self.maybe, self.count, self.killed, self.lock = [], [], 0, 0, threading.Lock()

    def messages(self, what, chance):
        """New messages."""
        with self.lock:
            self.count += 8
            count = {"post": 1, "toss": chance.choice((1, 2, 8))}.get(what, 0)
            return [Message(what, self.count + number, chance.choice((80, 300, 5000))) for number in range(count)]

    def command(self, chance, number):
        """Runs a command, and kills some."""
        what = chance.choices(list(CHANCES), CHANCES.values())[0]
        messages = self.messages(what, chance)
        copy = "copy.%d.%d" % (number, self.count)
        words, given = ("convert", "base", copy), b""
        if what != "convert":
            words, given = self.judge.words(what, messages, "%d.pkt" % number)
        before = list(self.done)
        pipes = {name: subprocess.PIPE for name in ("stdin", "stdout", "stderr")}
        with subprocess.Popen([PROGRAM, *words], cwd=self.folder, **pipes) as run:
            killer = threading.Timer(chance.random() ** 2 * 0.1, run.kill)
            if chance.random() < 0.4:
                killer.start()
            out, err = run.communicate(given)
            killer.cancel()
        with self.lock:
            (self.done if run.returncode == 0 else self.maybe).append(messages)
            self.killed += run.returncode == -9
        is_away = self.change == "turned" and what in ("list", "mbox", "convert") and err == b"echonet: cannot use base\n"
        self.judge.expect("%s ends with %d: %r" % (what, run.returncode, out[-100:] + err), run.returncode in (0, -9) or is_away)
        if what == "convert" and run.returncode == 0:
            seen = {number_of(text) for text in texts_of(os.path.join(self.folder, copy))}
            lost = [message.serial for message in sum(before, []) if message.serial not in seen]
            self.judge.expect("a copy lost %s" % lost, not lost)
            os.remove(os.path.join(self.folder, copy))

    def disturb(self, chance, number):
        """Converts the base to the other kind, or replaces the link file."""
        if self.change == "turned":
            self.judge.run(self.folder, "flock", "links", "sh", "-c", MOVE, PROGRAM)
        elif self.change == "replaced":
            path = os.path.join(self.folder, "links")
            with open(path + ".new", "wb") as file:
                file.write(b"; %d\n" % number + LINKS)
            os.rename(path + ".new", path)
        time.sleep(chance.random() * 0.02)

    def work(self, seed, until, deed):
        """Repeats an action."""
        chance, number = random.Random(seed), 0
        while time.time() < until:
            try:
                deed(chance, number)
            except (OSError, ValueError, IndexError) as fault:
                self.judge.expect("%r" % fault, False)
            number += 1

    def look(self):
        """Looks at the result."""
        self.done.append([Message("post", self.count + 9, 80)])
        for what, messages in (("post", self.done[-1]), ("scan", []), ("list", [])):
            words, given = self.judge.words(what, messages)
            self.judge.run(self.folder, PROGRAM, *words, given=given)
        wanted, may = sum(self.done, []), sum(self.done + self.maybe, [])
        seen = self.judge.texts("base", texts_of(os.path.join(self.folder, "base")), wanted, may)
        for messages in self.maybe:
            self.judge.expect("a part of a packet", len({message.serial in seen for message in messages}) < 2)
        there = [message for message in may if message.serial in seen]
        self.judge.packets("out", files_of(os.path.join(self.folder, "out"), ".pkt"), there, there)
        left = [name for place in ("", "out") for name in files_of(os.path.join(self.folder, place), "~.new")
                if not name.startswith("copy.")]
        self.judge.expect("left %s" % left, not left)
        return len(there)


def run_mixed(seed, seconds, count, is_folder, change):
    """A station, many commands, and a look. Returns the number of faults."""
    with tempfile.TemporaryDirectory(prefix="echonet-mixed.") as work:
        judge, folder = Judge(work), os.path.join(work, "station")
        os.makedirs(os.path.join(folder, "out"))
        if is_folder:
            os.mkdir(os.path.join(folder, "base"))
        with open(os.path.join(folder, "links"), "wb") as file:
            file.write(LINKS)
        mixed, until = Mixed(judge, folder, change), time.time() + seconds
        first = Message("post", 1, 80)
        words, given = judge.words("post", [first])
        judge.run(folder, PROGRAM, *words, given=given)
        mixed.done.append([first])
        mixed.count = 8
        deeds = [lambda chance, _, own=number: mixed.command(chance, own) for number in range(count)] + [mixed.disturb]
        threads = [threading.Thread(target=mixed.work, args=("%s %d" % (seed, number), until, deed))
                   for number, deed in enumerate(deeds)]
        for thread in threads:
            thread.start()
        for thread in threads:
            thread.join()
        there = mixed.look()
        for fault in judge.faults[:8]:
            print("failed: %s" % fault, file=sys.stderr)
        print("base %s, %s: %d commands, %d killed, %d messages, %d faults" % (
            "folder" if is_folder else "file",
            {"": "alone", "turned": "turned into the other kind", "replaced": "link file replaced"}[change],
            len(mixed.done) + len(mixed.maybe), mixed.killed, there, len(judge.faults)), flush=True)
        return len(judge.faults)


def main(words):
    """Both kinds, alone and with both changes."""
    seconds, count = float(words[0]) if words else 20, int(words[1]) if len(words) > 1 else 8
    seed = os.environ.get("SEED", str(random.randrange(2 ** 32)))
    print("seed %s" % seed)
    faults = [run_mixed(seed, seconds / 6, count, is_folder, change)
              for is_folder in (False, True) for change in ("", "turned", "replaced")]
    print("mixed.py: %.0f s, %d faults" % (seconds, sum(faults)))
    return 1 if any(faults) else 0


if __name__ == "__main__":
    sys.exit(main(sys.argv[1:]))
