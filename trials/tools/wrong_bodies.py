"""Tries wrong versions of the tools: the tests have to refuse each. A version is one line of a tool that another replaces.

Arguments: modules of tests, by default all. Each version is tried with the tests of its tool, or with those that it
names, until one fails.
"""
import os
import shutil
import subprocess
import sys
import tempfile

import fixtures
from wrong_lines import WRONG


def with_line(folder, name, line, wrong):
    """Copies the tools and the formats that they read, and replaces a line of one."""
    formats = os.path.join(os.path.dirname(folder), "fidonet")
    shutil.copytree(os.path.join(fixtures.TOP, "tools"), folder)
    shutil.copytree(os.path.join(fixtures.TOP, "station", "fidonet"), formats)
    path = next(path for path in (os.path.join(folder, name), os.path.join(formats, name)) if os.path.exists(path))
    with open(path, encoding="utf-8") as file:
        content = file.read()
    if content.count(line) != 1:
        sys.exit("wrong_bodies.py: %s has %r %d times" % (name, line, content.count(line)))
    with open(path, "w", encoding="utf-8") as file:
        file.write(content.replace(line, wrong))


def refused(module, folder, name):
    """Whether a test of a module with a name fails with the tools of a folder."""
    done = subprocess.run([sys.executable, "-m", "unittest", "--failfast", "-k", name, module], cwd=fixtures.HERE, check=False,
                          env={**os.environ, "TOOLS": folder}, stdout=subprocess.DEVNULL, stderr=subprocess.DEVNULL)
    return done.returncode != 0


def main():
    """Tries all versions of some tools."""
    modules, passed, tried = sys.argv[1:] or sorted(WRONG), [], 0
    for module in modules:
        for name, line, wrong, *test in WRONG[module]:
            with tempfile.TemporaryDirectory() as place:
                folder = os.path.join(place, "tools")
                with_line(folder, name, line, wrong)
                tried += 1
                if not refused(module, folder, test[0] if test else "test"):
                    passed.append("%s: %s" % (name, wrong))
                    print("PASSES: %s: %s" % (name, wrong), flush=True)
    print("wrong_bodies.py: %d wrong versions, %d refused" % (tried, tried - len(passed)))
    sys.exit(bool(passed))


main()
