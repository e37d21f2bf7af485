"""A folder of stations: a command is done for each."""
from __future__ import annotations

import os
import signal
import sys
from os.path import join, lexists
from typing import Callable, NoReturn

from .calls import status_of as shell_status
from .faults import Status
from .running import whole_status_of

PIECE = 1 << 16


def folders_in(folder: str) -> list[str]:
    """The names of the stations in a folder, in order."""
    names = sorted(os.listdir(folder))
    return [name for name in names if not name.startswith(".") and lexists(join(folder, name, "links"))]


def run_each(folder: str, names: list[str], work: Callable[[str], int]) -> int:
    """Does some work for each station, in a process of its own. Returns the greatest status."""
    greatest = 0
    for name in names:
        print("station %s" % name, flush=True)
        greatest = max(greatest, run_one(name, lambda: work(join(folder, name))))
    return greatest


def run_one(name: str, work: Callable[[], int]) -> int:
    """Does it for one. If it writes to standard error, its name comes first there."""
    sys.stderr.flush()
    reading, writing = os.pipe()
    child = os.fork()
    if child == 0:
        os.close(reading)
        be_one(writing, work)
    os.close(writing)
    try:
        pass_on(reading, "station %s\n" % name)
    except BaseException:
        os.kill(child, signal.SIGTERM)
        raise
    finally:
        os.close(reading)
        _, ended = os.waitpid(child, 0)
    status = shell_status(os.waitstatus_to_exitcode(ended))
    return status if status <= Status.COMMAND else Status.FAILED


def be_one(writing: int, work: Callable[[], int]) -> NoReturn:
    """The process that works for one station."""
    status = int(Status.FAILED)
    try:
        os.dup2(writing, 2)
        os.close(writing)
        status = whole_status_of(work)
        sys.stderr.flush()
    finally:
        os._exit(status)


def pass_on(reading: int, first: str) -> None:
    """Passes on what comes from a pipe, after a first line, if anything comes."""
    while True:
        piece = os.read(reading, PIECE)
        if not piece:
            return
        sys.stderr.write(first)
        sys.stderr.flush()
        sys.stderr.buffer.write(piece)
        sys.stderr.buffer.flush()
        first = ""
