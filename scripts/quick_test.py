#!/usr/bin/env python3
"""quick_test.py PROGRAM: runs the tests of the program that need nothing but it, as many at a time as there are
processors: the sessions of documents, the examples, the tables of cases, the story, the manual page, the scripts of
examples/net, and all small nets. Prints a line for each test, all output of one that failed, and a last line with
the counts. The program is that of `make quick`, which has to say that it is not proved."""
import concurrent.futures
import glob
import os
import re
import subprocess
import sys
import time

TOP = os.path.dirname(os.path.dirname(os.path.abspath(__file__)))
# The sessions of documents of a station that need no mailer.
SESSIONS = {
    "NODE": ["Harm and pictures"], "REFERENCE": ["Link files"],
    "HUB": ["A downlink in five minutes", "AreaFix", "When a link is refused", "Away for a while", "What goes on", "The files"]}
COUNTS = re.compile(r"(\d+) (?:checks )?passed, (\d+) failed|(\d+) commands printed what the document says, (\d+) did not")
LONGEST = "60m"


def tables():
    """The tables of cases, those with most rows first."""
    found = {}
    for path in glob.glob(os.path.join(TOP, "examples", "cases", "*.cases")):
        with open(path, encoding="latin-1") as file:
            found[os.path.basename(path)[:-6]] = sum(line.count("|") > 2 for line in file)
    return sorted(found, key=lambda name: -found[name])


def tests(program, cores):
    """Each test: its name and its command. Those that take longest come first."""
    nets = [("small nets, part %d of %d" % (part + 1, cores), ["python3", "trials/small_nets.py", str(part), str(cores)])
            for part in range(cores)]
    scripts = [("net-test, folders", ["station/tests/net-test.sh", program, "folders"]), ("net-test, files", ["station/tests/net-test.sh", program])]
    cases = [("cases, " + name, ["scripts/cases.sh", program, name]) for name in tables()]
    sessions = [(name, ["scripts/follow.sh", "docs/%s.md" % name, program, ".", *headings]) for name, headings in SESSIONS.items()]
    return nets + scripts + cases + sessions + [
        ("story", ["examples/story.sh", program]), ("manual page", ["scripts/manual.sh", "docs/echonet.1", program]),
        ("README", ["scripts/follow.sh", "README.md", program]),
        ("REPAIR", ["scripts/follow.sh", "docs/REPAIR.md", program]),
        ("show-examples", ["scripts/show_examples.sh", program])]


def run(command, program):
    """Runs a command. Returns its status, 124 if it did not end in time, and its output."""
    ended = subprocess.run(["timeout", LONGEST, *command], cwd=TOP, stdin=subprocess.DEVNULL, stdout=subprocess.PIPE, check=False,
                           stderr=subprocess.STDOUT, text=True, errors="replace", env={**os.environ, "ECHONET": program})
    return ended.returncode, ended.stdout


def counted(name, command, program):
    """Runs a test. Returns how many of its checks passed and failed, and prints a line."""
    begun = time.monotonic()
    status, said = run(command, program)
    counts = COUNTS.search(said.rstrip("\n").rsplit("\n", 1)[-1])
    passed, failed = [int(count) for count in counts.groups() if count] if counts else (0, 0)
    if not passed or status:
        failed = max(failed, 1)
    if failed:
        print(said + "%s: FAILED, status %s" % (name, status))
    print("%s: %d passed, %d failed, %d s" % (name, passed, failed, time.monotonic() - begun), flush=True)
    return passed, failed


def marks(program):
    """Checks that the version and the first line of the help say that the program is not proved."""
    said = [subprocess.run([program, word], stdout=subprocess.PIPE, check=False, text=True).stdout for word in ("--version", "--help")]
    passed = sum("not proved" in text.split("\n")[0] for text in said)
    print("marks: %d passed, %d failed" % (passed, 2 - passed), flush=True)
    return passed, 2 - passed


def main():
    """Runs all tests."""
    program, cores = os.path.abspath(sys.argv[1]), len(os.sched_getaffinity(0))
    results = [marks(program)]
    with concurrent.futures.ThreadPoolExecutor(cores) as pool:
        results += pool.map(lambda test: counted(*test, program), tests(program, cores))
    passed, failed = (sum(counts) for counts in zip(*results))
    print("%d passed, %d failed" % (passed, failed))
    return failed > 0


if __name__ == "__main__":
    sys.exit(main())
