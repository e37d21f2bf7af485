"""Runs of a station with `peers`, killed at random and started at the same time.

Bundles of CrashMail with letters arrive one by one, and own messages and letters wait. Meanwhile `toss` and `scan` run,
up to three at once. Each is killed with all that it started, after a random time, or ends by itself. Then the runs
run to their ends. What has to hold then is that of station_full.py: nothing lost, twice or put aside. Arguments: how many
stations (10), the first number (0). It needs crashmail, zip and unzip; without them it is left out, with a line.
"""
import os
import random
import signal
import subprocess
import sys
import tempfile
import time

from lib import others
import station_full
from lib.contents import write

LONGEST = 1.5  # seconds until a kill


def killed(trial, chance):
    """Starts some runs, and kills most of them. Returns how many were killed."""
    runs = [subprocess.Popen([station_full.STATION, trial.folder, chance.choice(("toss", "scan"))], stdout=subprocess.DEVNULL,
                             stderr=subprocess.DEVNULL, start_new_session=True) for _ in range(chance.randint(1, 3))]
    count = 0
    for run in runs:
        if chance.random() < 0.8:
            time.sleep(chance.random() * LONGEST)
            count += run.poll() is None
            try:
                os.killpg(run.pid, signal.SIGKILL)
            except ProcessLookupError:
                pass
    for run in runs:
        status = run.wait()
        if status not in (0, -signal.SIGKILL):
            sys.exit("station_kills.py: a run ends with %d" % status)
    return count


def main():
    """The trial."""
    count = int(sys.argv[1]) if len(sys.argv) > 1 else 10
    begin = int(sys.argv[2]) if len(sys.argv) > 2 else 0
    lack = others.missing("crashmail", "zip", "unzip")
    if lack:
        print("station_kills.py: left out, there is no %s (trials/programs.sh)" % lack)
        return
    os.environ["ECHONET"] = station_full.PROGRAM
    kills = 0
    with tempfile.TemporaryDirectory() as place:
        received = station_full.bundles(os.path.join(place, "uplink"))
    for number in range(begin, begin + count):
        chance = random.Random("kills %d" % number)
        with tempfile.TemporaryDirectory() as place:
            trial = station_full.Trial(place, {})
            for name, content in received.items():
                write(os.path.join(trial.folder, "inbound", name), content)
                for _ in range(chance.randint(1, 3)):
                    kills += killed(trial, chance)
            statuses, said = trial.run(["toss", "scan", "toss"])
            statuses += trial.run(["scan"])[0]
            faults = trial.faults()
            if any(statuses) or faults:
                sys.exit("station_kills.py: station %d: %r %r\n%s" % (number, statuses, faults, said))
    if not kills:
        sys.exit("station_kills.py: nothing was killed")
    print("station_kills.py: %d stations, %d kills: nothing lost, twice or put aside" % (count, kills))


if __name__ == "__main__":
    main()
