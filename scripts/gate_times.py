#!/usr/bin/env python3
"""Runs the gate, or another command, and writes what each crate cost. Arguments: the file to write, and the command.

Each second it reads from /proc how much processor time each process of `rattle` below the command has used. That
includes the copies of itself that such a process starts. What a process uses after its last reading is not counted
for its crate. The line of the whole command includes it.
"""
import os
import subprocess
import sys
import time
from collections import defaultdict

KINDS = ("proof", "tests", "first edit", "other edits")
TICK = os.sysconf("SC_CLK_TCK")
EVERY = 1.0


def stat_of(number):
    """Returns the parent of a process, when it began, and its seconds with those of children that ended."""
    with open(f"/proc/{number}/stat") as file:
        words = file.read().rsplit(")", 1)[1].split()
    return int(words[1]), words[19], sum(map(int, words[11:15])) / TICK


def task_of(number):
    """Returns the crate and the kind of work of a process, or None if it is no check or build of rattle."""
    with open(f"/proc/{number}/cmdline", "rb") as file:
        words = file.read().decode(errors="replace").split("\0")
    if os.path.basename(words[0]) != "rattle" or words[1:2] not in (["check"], ["build"]):
        return None
    if "--crate-name" not in words:
        return None
    crate = words[words.index("--crate-name") + 1]
    if "/rt-edit-" in os.readlink(f"/proc/{number}/cwd") + " ".join(words):
        return crate, "edits"
    return crate, "tests" if "--test" in words else "proof"


class Sampler:
    """What the processes below one have used so far."""

    def __init__(self, top):
        self.top = top
        self.tasks = {}  # process and its beginning: its task, if it is one of rattle's
        self.spent = {}  # the same: its seconds, in the order in which they began
        self.strangers = defaultdict(int)  # how often a process was read that is not one of rattle's

    def sample(self):
        """Reads all processes once."""
        stats = {}
        for name in os.listdir("/proc"):
            if name.isdigit():
                try:
                    stats[int(name)] = stat_of(int(name))
                except (OSError, IndexError):
                    pass
        seconds = defaultdict(float)
        for number in stats:
            owner = self.owner(number, stats)
            if owner:
                seconds[owner] += stats[number][2]
        for owner, used in seconds.items():
            self.spent[owner] = max(used, self.spent.get(owner, 0.0))

    def owner(self, number, stats):
        """Returns the highest process of rattle among this one and its parents, if it is below the command."""
        found, at = None, number
        while at in stats and at != self.top:
            if self.is_task((at, stats[at][1])):
                found = at, stats[at][1]
            at = stats[at][0]
        return found if at == self.top else None

    def is_task(self, process):
        # A process may become rattle some time after it began.
        if process not in self.tasks and self.strangers[process] < 5:
            self.strangers[process] += 1
            try:
                task = task_of(process[0])
            except OSError:
                task = None
            if task:
                self.tasks[process] = task
        return process in self.tasks

    def table(self):
        """Returns the seconds of each crate by kind. A crate's first process of edits proves the crate again."""
        crates = defaultdict(lambda: dict.fromkeys(KINDS, 0.0))
        begun = set()
        for process, used in self.spent.items():
            crate, kind = self.tasks[process]
            if kind == "edits":
                kind = "other edits" if crate in begun else "first edit"
                begun.add(crate)
            crates[crate][kind] += used
        return crates


def page(crates, clock, all_seconds):
    """Returns the table as Markdown, the crate with the most seconds first."""
    lines = ["| Crate | " + " | ".join(it.capitalize() for it in KINDS) + " | All |", "|---" * (len(KINDS) + 2) + "|"]
    sums = {kind: sum(it[kind] for it in crates.values()) for kind in KINDS}
    rows = sorted(crates.items(), key=lambda it: -sum(it[1].values()))
    for name, row in [*rows, ("All", sums)]:
        cells = [*(row[kind] for kind in KINDS), sum(row.values())]
        lines.append(f"| {name} | " + " | ".join(f"{it:.0f}" if it else "-" for it in cells) + " |")
    rest = all_seconds - sum(sums.values())
    lines += ["", f"Seconds of processor time. The whole command took {clock / 60:.1f} minutes by the clock and"]
    lines += [f"{all_seconds / 60:.1f} processor minutes, {rest / 60:.1f} of them for what is no check or build of a crate."]
    return "\n".join(lines) + "\n"


def main(file, command):
    begun = time.monotonic()
    child = subprocess.Popen(command)
    sampler = Sampler(child.pid)
    while True:
        ended, status, used = os.wait4(child.pid, os.WNOHANG)
        if ended:
            break
        sampler.sample()
        time.sleep(EVERY)
    text = page(sampler.table(), time.monotonic() - begun, used.ru_utime + used.ru_stime)
    with open(file, "w", encoding="utf-8") as it:
        it.write(text)
    print(text, end="")
    return os.waitstatus_to_exitcode(status) & 0xFF


if __name__ == "__main__":
    if len(sys.argv) < 3:
        sys.exit(__doc__)
    sys.exit(main(sys.argv[1], sys.argv[2:]))
