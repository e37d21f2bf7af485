"""Tries many small hostile inputs. Each is made from its kind and its number, so a failure can be reproduced.
Arguments: how many inputs (100,000), how many at a time (1), the first number (0); or `--one KIND NUMBER FOLDER`,
which leaves the files of one trial in a folder; or `--write KIND NUMBER`, which writes one input to standard output.
"""
import glob
import multiprocessing
import os
import random
import shutil
import sys
import tempfile
import time

from lib import laws, reading, running, small
from lib.contents import PROGRAM, TOP

EXAMPLES = os.path.join(TOP, "examples")
SEED = "echonet"


def real_packets():
    """Packets that another tosser wrote."""
    contents = []
    for path in sorted(glob.glob(os.path.join(EXAMPLES, "packets", "*.pkt"))):
        with open(path, "rb") as file:
            contents.append(file.read())
    return contents


REAL = real_packets()
# How many of each hundred inputs are of a kind.
KINDS = {
    "packet": (40, lambda chance: small.packet(chance, REAL), laws.try_packet),
    "base": (20, small.base, laws.try_base),
    "nodelist": (12, small.nodelist, laws.try_nodelist),
    "links": (12, small.link_files, laws.try_links),
    "script": (8, small.script, laws.try_script),
    "hex": (4, lambda chance: small.hexadecimal(chance, REAL), laws.try_hex),
    "posting": (4, small.posting, laws.try_posting)}
ORDER = [kind for kind, (share, _, _) in KINDS.items() for _ in range(share)]


def made(kind, number):
    """The input of a kind and a number."""
    return KINDS[kind][1](random.Random("%s %s %d" % (SEED, kind, number)))


def try_one(kind, number, runner):
    """Makes and tries an input, and returns what did not hold."""
    trial = laws.Trial(runner, EXAMPLES)
    laws.clear(runner.folder)
    laws.set_up(trial)
    try:
        KINDS[kind][2](trial, made(kind, number))
    except (reading.Fault, ValueError, IndexError, StopIteration, TypeError, AttributeError, OSError) as wrong:
        trial.failures.append("the trial stopped: %r" % wrong)
    return trial.failures


def folder_for_trials():
    """A folder in memory if there is one, so that no disk delays the trial."""
    return tempfile.mkdtemp(prefix="echonet-trials.", dir="/dev/shm" if os.path.isdir("/dev/shm") else None)


def try_share(share):
    """Tries each so-many-th input, in a process of its own. Returns the counts and the failures."""
    first, count, step, begin = share
    folder = folder_for_trials()
    runner = running.Runner(PROGRAM, os.path.join(folder, "trial"))
    failures = []
    try:
        for number in range(begin + first, begin + count, step):
            kind = ORDER[number * 37 % 100]
            failures += ["%s %d: %s" % (kind, number, failure) for failure in try_one(kind, number, runner)]
    finally:
        shutil.rmtree(folder)
    return runner.runs, failures, runner.most_kilobytes, runner.most_seconds


def try_all(count, jobs, begin):
    """Tries so many inputs and prints what did not hold, and the counts. Returns the status."""
    started = time.time()
    shares = [(first, count, jobs, begin) for first in range(jobs)]
    with multiprocessing.Pool(jobs) as pool:
        results = pool.map(try_share, shares, chunksize=1)
    failures = [failure for result in results for failure in result[1]]
    for failure in failures[:50]:
        print("failed: " + failure, file=sys.stderr)
    print("%d runs in %.0f s; the longest took %.2f s of processor time, the largest %d kB" % (
        sum(result[0] for result in results), time.time() - started,
        max(result[3] for result in results), max(result[2] for result in results)))
    print("hostile: %d passed, %d failed" % (count - len({failure.split(":")[0] for failure in failures}),
                                             len({failure.split(":")[0] for failure in failures})))
    return 1 if failures else 0


def main(words):
    """Tries one input or all."""
    if words[:1] == ["--one"]:
        runner = running.Runner(PROGRAM, os.path.abspath(words[3]))
        failures = try_one(words[1], int(words[2]), runner)
        print("\n".join(failures) or "all holds")
        return 1 if failures else 0
    if words[:1] == ["--write"]:
        sys.stdout.buffer.write(made(words[1], int(words[2])))
        return 0
    numbers = [int(word) for word in words] + [100_000, 1, 0][len(words):]
    return try_all(*numbers)


if __name__ == "__main__":
    sys.exit(main(sys.argv[1:]))
