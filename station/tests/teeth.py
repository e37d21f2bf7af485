#!/usr/bin/env python3
"""teeth.py [WORD..]: takes care away from the station, one piece at a time: a flush, an order or a check. A test has to
see each slip. With words, only the slips whose names have one of them are tried."""
from __future__ import annotations

import os
import shutil
import subprocess
import sys
import tempfile
from os.path import abspath, dirname, join

from slip import Slip
from slips_of_gate import SLIPS as OF_GATE
from slips_of_hub import SLIPS as OF_HUB
from slips_of_runs import SLIPS as OF_RUNS

STATION = dirname(dirname(abspath(__file__)))
MOST_SECONDS = int(os.environ.get("MOST_SECONDS", "600"))
SLIPS = (*OF_GATE, *OF_RUNS, *OF_HUB)


def is_seen(slip: Slip) -> bool:
    """Whether the test fails on a copy of the station with the slip."""
    with tempfile.TemporaryDirectory() as work:
        copy = join(work, "station")
        shutil.copytree(STATION, copy, ignore=shutil.ignore_patterns("__pycache__"))
        os.symlink(join(dirname(STATION), "tools"), join(work, "tools"))
        os.symlink(join(dirname(STATION), "docs"), join(work, "docs"))
        path = join(copy, "echonet_station", slip.file)
        with open(path, encoding="utf-8") as file:
            text = file.read()
        if text.count(slip.right) != 1:
            sys.exit("teeth: %s: %d places in %s" % (slip.what, text.count(slip.right), slip.file))
        with open(path, "w", encoding="utf-8") as file:
            file.write(text.replace(slip.right, slip.wrong))
        words = [sys.executable, "-m", "unittest", "-f", slip.test]
        ran = subprocess.run(words, cwd=join(copy, "tests"), capture_output=True, check=False, timeout=MOST_SECONDS)
        last = ran.stderr.decode("utf-8", "replace").strip().split("\n")
        if "Ran 0 tests" in last[-3:][0] or any("_FailedTest" in line for line in last):
            sys.exit("teeth: no test %s" % slip.test)
        return ran.returncode != 0


def main() -> None:
    """Tries the slips."""
    chosen = [slip for slip in SLIPS if not sys.argv[1:] or any(word in slip.what for word in sys.argv[1:])]
    seen = 0
    for slip in chosen:
        is_good = is_seen(slip)
        seen += is_good
        print("%s %s (%s)" % ("seen" if is_good else "NOT SEEN", slip.what, slip.test), flush=True)
    print("teeth: %d of %d slips seen" % (seen, len(chosen)))
    sys.exit(seen != len(chosen))


if __name__ == "__main__":
    os.environ.setdefault("ECHONET", "echonet")
    main()
