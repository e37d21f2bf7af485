"""Locks of runs. Programs that are called keep them: if this process is killed, the next run waits for that program."""
from __future__ import annotations

import contextlib
import fcntl
from typing import IO, Iterator

from .calls import kept_locks


@contextlib.contextmanager
def kept(file: IO[bytes]) -> Iterator[None]:
    """Lets called programs keep a file that has a lock."""
    kept_locks.append(file.fileno())
    try:
        yield
    finally:
        kept_locks.remove(file.fileno())


@contextlib.contextmanager
def locked(path: str) -> Iterator[None]:
    """Waits for the lock of a file, which is made if it is not there."""
    with open(path, "ab") as file, kept(file):
        fcntl.flock(file, fcntl.LOCK_EX)
        yield
