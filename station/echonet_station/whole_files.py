"""Replaces files whole: what stops this leaves the old bytes or the new ones."""
from __future__ import annotations

import os
import stat
from os.path import dirname, exists

from .disk import Disk

CLOSED = 0o600


def mode_of(path: str) -> int:
    """Who may use a file. One that is not there yet is closed to others."""
    return stat.S_IMODE(os.stat(path).st_mode) if exists(path) else CLOSED


def replace(disk: Disk, path: str, content: bytes) -> None:
    """Replaces a file, or makes it. It is on the disk then. Who may use it stays."""
    new = path + ".new"
    try:
        disk.stage(new, content)
        disk.set_mode(new, mode_of(path))
        disk.flush(new)
        disk.rename(new, path)
    except OSError:
        disk.unlink(new)
        raise
    disk.sync(dirname(path))


def content_of(path: str) -> bytes:
    """The bytes of a file: none, if it is not there."""
    try:
        with open(path, "rb") as file:
            return file.read()
    except FileNotFoundError:
        return b""
