"""Trials for "new keys"."""
import os
import shutil
import subprocess

from crashmail import HERE, wait_for_second, within_a_second
from judge import Given
from trying import trials_of

TRIALS, trial = trials_of("new keys")


def written(run, subject, folder, **more):
    """Has crashwrite make a posting in a folder of its own."""
    posted = run.tosser.write_posting("TEST", "All", "Bob", subject, [b"Hello"], folder, **more)
    run.given.append(Given(None, posted))


def sent(run, *folders):
    """Has CrashMail toss the posting."""
    for folder in folders:
        run.tosser.run("TOSSDIR", run.tosser.path(folder), "NOSECURITY")
        run.copies += run.tosser.sent()


@trial()
def postings(run):
    """three postings, each in a second of its own; those of CrashMail by crashwrite"""
    for number in b"123":
        wait_for_second()
        run.post(b"Number %c" % number, b"Hello")


@trial("new keys", alone=True)
def postings_of_a_second(run):
    """two postings of crashwrite in one second, the first already taken: they have one id"""
    def post_twice(number):
        for name in ("first%d", "second%d"):
            written(run, (name % number).encode(), name % number)
    within_a_second(post_twice)
    sent(run, *[given.message.subject.decode() for given in run.given])


@trial("new keys", alone=True)
def half_a_year(run):
    """two postings of crashwrite 16,777,216 seconds (194 days) apart: they have one id"""
    clock = run.tosser.path("clock.so")
    subprocess.run(["cc", "-shared", "-fPIC", "-o", clock, os.path.join(HERE, "clock.c")], check=True)
    for subject, folder, now in ((b"First", "first", 1783000000), (b"Second", "second", 1783000000 + 2 ** 24)):
        written(run, subject, folder, changed={"LD_PRELOAD": clock, "NOW": str(now)})
    sent(run, "first", "second")


if not shutil.which("cc"):
    TRIALS = [each for each in TRIALS if each.act is not half_a_year]
