"""Tests whether CrashMail II keeps the rules that docs/INTEROP.md asks of each tosser, and prints which it keeps.

In each trial a system of its own gets packets and postings. All five rules judge what it files and sends. It has to
break exactly the rules that the trial names. echonet runs the same trials where it can, and has to break no rule.
Arguments: the trials to run, by default all. With -v it prints what was broken. rules.sh calls this.
"""
import os
import sys
import tempfile

import filing
import keeping
import keys
import sending
import telling
from crashmail import CrashMail
from echonet import Echonet
from judge import RULES
from trying import Run

# A settings file of CrashMail has room for short paths only.
FOLDERS = "/dev/shm" if os.path.isdir("/dev/shm") else None
TRIALS = filing.TRIALS + keeping.TRIALS + sending.TRIALS + telling.TRIALS + keys.TRIALS


def held(trial, tosser):
    """What a tosser broke in a trial."""
    settings = trial.settings if tosser is CrashMail else {}
    with tempfile.TemporaryDirectory(prefix="rules.", dir=FOLDERS) as folder:
        run = Run(tosser(folder, trial.nets, **settings))
        trial.act(run)
        return run.broken()


def expect(trial, tosser, breaks, is_wordy):
    """Whether a tosser breaks exactly these rules in a trial."""
    broken = held(trial, tosser)
    found = frozenset(rule for rule, _ in broken)
    if found != breaks:
        print("FAILED %s of %s: broken are %s, and expected was %s" % (
            trial.name, tosser.name, sorted(found) or "none", sorted(breaks) or "none"))
    if found != breaks or is_wordy:
        for rule, what in broken:
            print("  %s, %s: %s" % (trial.name, rule, what))
    return found == breaks


def print_table(trials):
    """The table: each rule, whether it was kept, and what was tried."""
    print("CrashMail II and the rules of docs/INTEROP.md, by trial:")
    for rule in RULES:
        breaking = [trial for trial in trials if rule in trial.breaks]
        keeping_it = [trial for trial in trials if trial.rule == rule and trial not in breaking]
        settings = sum(bool(trial.settings) for trial in breaking)
        print("\n%s: kept in %d trials, broken in %d and by %d settings" % (
            rule, len(keeping_it), len(breaking) - settings, settings))
        for mark, rows in (("kept", keeping_it), ("broken", breaking)):
            for trial in rows:
                print("  %-6s  %-21s  %s" % (mark, trial.name, trial.what))


def main(words):
    """Runs the trials."""
    is_wordy = "-v" in words
    names = set(words) - {"-v"}
    trials = [trial for trial in TRIALS if not names or trial.name in names]
    for name in names - {trial.name for trial in trials}:
        print("There is no trial %s" % name)
        return 4
    good = sum([expect(trial, CrashMail, trial.breaks, is_wordy) for trial in trials])
    common = [trial for trial in trials if trial.for_all]
    kept = sum([expect(trial, Echonet, frozenset(), is_wordy) for trial in common])
    print_table(trials)
    print("\n%d of %d trials as the table says; echonet kept all rules in %d of the %d that it can be put to" % (
        good, len(trials), kept, len(common)))
    return 0 if (good, kept) == (len(trials), len(common)) else 1


if __name__ == "__main__":
    sys.exit(main(sys.argv[1:]))
