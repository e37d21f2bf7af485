"""Holds on links: a file NAME.bsy beside the flow file, as mailers and tossers make it."""
from __future__ import annotations

import glob
import os
import re
import time
from os.path import dirname, exists, join, lexists
from typing import Optional

from .disk import Disk

OLD = 3600  # seconds after which a hold that names no process was left
NUMBER = re.compile(rb"[0-9]+")
FOLDERS = ("{}", "{}.*", "{}/*.pnt", "{}.*/*.pnt")


class Held(Exception):
    """Another process holds the link."""


def owner_of(path: str) -> Optional[int]:
    """The process that a hold names."""
    try:
        with open(path, "rb") as file:
            found = NUMBER.search(file.read())
    except OSError:
        return None
    return int(found[0]) if found else None


def has_ended(process: int) -> bool:
    """Whether there is no such process."""
    try:
        os.kill(process, 0)
    except ProcessLookupError:
        return True
    except (OSError, OverflowError):
        return False
    return False


def is_left(path: str) -> bool:
    """Whether another process left its hold: it has ended, or the file names none and is an hour old."""
    owner = owner_of(path)
    if owner is not None:
        return has_ended(owner)
    return exists(path) and time.time() - os.stat(path).st_mtime > OLD


class Holds:
    """The holds of a station. While a link is held, its hold has a second name, by which a later run knows it. It has that
    name on the disk first, and loses it last, so no power cut leaves a hold that the next run takes for another's."""

    def __init__(self, disk: Disk, own: str) -> None:
        self.disk = disk
        self.ending = ".~%s~.hold" % re.sub("[:/]", ".", own)

    def free_left(self, outbound: str) -> None:
        """Frees what a stopped run of this station held. No other run holds a link at the same time, so the content does
        not matter."""
        for form in FOLDERS:
            for second in sorted(glob.glob(join(form.format(glob.escape(outbound)), "*" + self.ending))):
                left = second[: -len(self.ending)] + ".bsy"
                if exists(left) and os.path.samefile(left, second):
                    self.disk.unlink(left)
                self.disk.unlink(second)

    def hold(self, flow: str) -> None:
        """Holds a link, or takes over a hold that was left. It has its number, also on the disk, when it gets its name."""
        second, name = flow + self.ending, flow + ".bsy"
        if exists(name) and is_left(name):
            self.disk.unlink(name)
        try:
            self.disk.write(second, b"%d\n" % os.getpid())
            self.disk.sync(dirname(flow))  # after a power cut no hold is there without its second name
            self.disk.link(second, name)
        except OSError as fault:
            self.disk.unlink(second)
            if lexists(name):
                raise Held from fault
            raise

    def free(self, flow: str) -> None:
        """Frees it."""
        self.disk.unlink(flow + ".bsy")
        self.disk.sync(dirname(flow))
        self.disk.unlink(flow + self.ending)
