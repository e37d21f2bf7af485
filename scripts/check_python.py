#!/usr/bin/env python3
"""Checks the Python of station and tools: `mypy --strict` for Python 3.9, `pyflakes`, no function over 40 lines, and no file
over 500."""
from __future__ import annotations

import ast
import os
import subprocess
import sys
from typing import Iterator

TOP = os.path.dirname(os.path.dirname(os.path.abspath(__file__)))
PACKAGES = ("station/echonet_station", "station/fidonet")
PROGRAMS = ("station/echonet-station", "tools/links-from", "tools/links-seen", "tools/net-page", "tools/jam-to-packets", "tools/msg-to-packets")
TESTS = "station/tests"
MOST_OF_A_FUNCTION = 40
MOST_OF_A_FILE = 500
TYPES = ("mypy", "--strict", "--python-version", "3.9")


def modules_in(folder: str) -> list[str]:
    """The modules of a folder."""
    return [os.path.join(folder, name) for name in sorted(os.listdir(os.path.join(TOP, folder))) if name.endswith(".py")]


def too_long(path: str) -> Iterator[str]:
    """The functions of a file that are too long, and the file itself."""
    with open(os.path.join(TOP, path), encoding="utf-8") as file:
        text = file.read()
    if text.count("\n") > MOST_OF_A_FILE:
        yield "%s: %d lines" % (path, text.count("\n"))
    for node in ast.walk(ast.parse(text)):
        if isinstance(node, (ast.FunctionDef, ast.AsyncFunctionDef)):
            lines = (node.end_lineno or node.lineno) - node.lineno + 1
            if lines > MOST_OF_A_FUNCTION:
                yield "%s:%d: %s has %d lines" % (path, node.lineno, node.name, lines)


def calls(*words: str) -> bool:
    """Whether a program finds nothing wrong."""
    env = dict(os.environ, MYPYPATH=os.pathsep.join((os.path.join(TOP, "station"), os.path.join(TOP, "tools"))))
    try:
        return subprocess.run(words, cwd=TOP, env=env, check=False).returncode == 0
    except FileNotFoundError:
        print("check_python.py: there is no %s (Debian: apt-get install mypy pyflakes3)" % words[0])
        return False


def main() -> None:
    """Runs all checks."""
    sources = [*(path for folder in (*PACKAGES, "tools") for path in modules_in(folder)), *PROGRAMS]
    lines = [line for path in (*sources, *modules_in(TESTS)) for line in too_long(path)]
    print("\n".join(lines), end="\n" if lines else "")
    good = not lines and calls("pyflakes3", *sources, *modules_in(TESTS)) and calls(*TYPES, *PACKAGES)
    # Each program is a module of its own name, so they are checked one by one.
    good = good and all([calls(*TYPES, "--no-error-summary", path) for path in PROGRAMS])
    print("check_python.py: %d files, %s" % (len(sources), "good" if good else "see above"))
    sys.exit(not good)


if __name__ == "__main__":
    main()
