#!/usr/bin/env python3
"""dearest.py [CRATE..]: prints the twenty functions of these crates that take the prover longest, in processor seconds.
Without crates: of the dearest crate in scripts/seconds.txt. The crates below have to be built.

Each crate is checked from nothing, by one process. A line `checked NAME` comes after a group of functions, so it does
not tell the seconds of one. But the prover writes a file for each module of a proof, once that is checked. Here the
seconds between two such files are those of the second, and a function has those of its own modules: not those of a
start, and not those of the functions that it calls."""
import bisect
import glob
import importlib.machinery
import importlib.util
import os
import re
import shutil
import subprocess
import sys
import tempfile
import time

COUNT = 20
EVERY = 0.25
TICK = os.sysconf("SC_CLK_TCK")


def toolchain():
    """The toolchain's `rt`, as a module."""
    path = os.path.realpath(shutil.which("rt"))
    sys.path.insert(0, os.path.dirname(path))
    loader = importlib.machinery.SourceFileLoader("rt", path)
    rt = importlib.util.module_from_spec(importlib.util.spec_from_loader("rt", loader))
    loader.exec_module(rt)
    return rt


def spent(process):
    """The processor seconds of a process, and of those that it started."""
    try:
        with open(f"/proc/{process}/stat") as file:
            words = file.read().rsplit(")", 1)[1].split()
        with open(f"/proc/{process}/task/{process}/children") as file:
            children = file.read().split()
    except OSError:
        return 0.0
    return sum(map(int, words[11:15])) / TICK + sum(map(spent, children))


def sampled(command, folder):
    """Runs a command. Returns its status, what it printed, and its seconds at each moment."""
    moments, seconds, before = [], [], 0.0
    with tempfile.TemporaryFile("w+") as said:
        run = subprocess.Popen(command, cwd=folder, stdout=said, stderr=subprocess.STDOUT)
        while run.poll() is None:
            before = max(before, spent(run.pid))
            moments.append(time.time())
            seconds.append(before)
            time.sleep(EVERY)
        said.seek(0)
        return run.returncode, said.read(), (moments, seconds)


def at(moment, clock):
    """The seconds at a moment, between two samples."""
    moments, seconds = clock
    place = min(max(bisect.bisect(moments, moment), 1), len(moments) - 1)
    begins, ends = moments[place - 1], moments[place]
    share = min(max((moment - begins) / (ends - begins), 0.0), 1.0)
    return seconds[place - 1] + share * (seconds[place] - seconds[place - 1])


def function_of(module, names):
    """The function that a module of a proof belongs to, or what it belongs to otherwise."""
    parts = [it for it in re.sub(r"^Rattle-\w+[-.]proofs\.", "", module).split(".") if it != "fn"]
    for size in range(len(parts), 0, -1):
        if ".".join(parts[:size]) in names:
            return names[".".join(parts[:size])]
    return None


def functions_of(crate, rt):
    """The seconds of each function of a crate, of its start and of all, from a check of one process."""
    with tempfile.TemporaryDirectory() as kept:
        words = crate.words(["--jobs", "1"], keeps=False)
        command = [rt.rtlib.RATTLE, "check", *words, "--progress", "--incremental", kept]
        status, said, clock = sampled(command, crate.folder)
        if status:
            sys.exit(f"dearest.py: {crate.name} is not proved:\n{said[-500:]}")
        files = glob.glob(f"{kept}/**/Rattle-{crate.name}[-.]*.oantt", recursive=True)
        times = sorted((os.stat(it).st_mtime, os.path.basename(it)[: -len(".oantt")]) for it in files)
    checked = re.findall(r"^checked (\S+), \d+ of \d+$", said, re.M)
    names = {it.removeprefix(f"{crate.name}::").replace("::", "."): it for it in checked}
    functions = dict.fromkeys(checked, 0.0)
    before = start = at(times[0][0], clock)
    for moment, module in times:
        now = at(moment, clock)
        name = function_of(module, names)
        if name:
            functions[name] += now - before
        before = now
    return functions, start, clock[1][-1]


def main(wanted):
    os.chdir(os.path.dirname(os.path.dirname(os.path.abspath(__file__))))
    if not wanted:
        with open("scripts/seconds.txt") as file:
            wanted = [max((line.split() for line in file), key=lambda row: int(row[1]))[0]]
    rt = toolchain()
    crates = {it.name: it for it in rt.rtlib.crates_below(os.getcwd())}
    rows = []
    for name in wanted:
        functions, start, whole = functions_of(crates[name], rt)
        print(f"{name}: {whole:.0f} seconds, {start:.0f} before the first function, {len(functions)} functions")
        rows += [(seconds, function) for function, seconds in functions.items()]
    for seconds, function in sorted(rows, reverse=True)[:COUNT]:
        print(f"{seconds:6.1f} {function}")


if __name__ == "__main__":
    main(sys.argv[1:])
