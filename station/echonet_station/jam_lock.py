"""The lock that JAM programs take: the first byte of PATH.jhr, by fcntl.

It belongs to the opened file. One that belonged to the process would end as soon as this closes PATH.jhr anywhere else."""
from __future__ import annotations

import contextlib
import fcntl
import os
import struct
import time
from typing import IO, Iterator

from .faults import Status, Stopped
from .locks import kept

TRIES = 300
PAUSE = 0.1  # seconds
FIRST_BYTE = struct.pack("@hhqqixxxx", fcntl.F_WRLCK, os.SEEK_SET, 0, 1, 0)  # a `struct flock`


@contextlib.contextmanager
def jam_lock(path: str) -> Iterator[None]:
    """Holds the lock. It waits half a minute for another program."""
    try:
        file = open(path, "r+b")
    except OSError as fault:
        raise Stopped(Status.FAILED, "cannot use %s" % path) from fault
    with file, kept(file):
        take(file, path)
        yield


def take(file: IO[bytes], path: str) -> None:
    """Takes the lock of an opened file."""
    for _ in range(TRIES):
        try:
            fcntl.fcntl(file, fcntl.F_OFD_SETLK, FIRST_BYTE)
            return
        except (BlockingIOError, PermissionError):
            time.sleep(PAUSE)
    raise Stopped(Status.FAILED, "another program has locked %s" % path)
