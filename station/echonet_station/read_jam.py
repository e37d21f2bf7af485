"""A reader's JAM base. What an editor wrote there is posted, and marked as Sent. Then the new messages of the base are added.

PATH.next has the number of the message with which the next run begins. A refused message stays, and the status is 2. Each
call holds the lock of JAM programs, so that they may run at the same time."""
from __future__ import annotations

import contextlib
import os
import struct
from os.path import exists
from typing import ContextManager

from fidonet import jam

from .calls import Called, call, program
from .counts import may_post
from .faults import Status
from .jam_lock import jam_lock
from .jam_outbox import Outbox, mark_sent, small
from .locks import locked
from .reading import Ended, Reader
from .running import say_fault


def mark_of(path: str) -> str:
    """Time and size of a file, as `stat` prints them."""
    about = os.stat(path)
    return "%d.%09d %d" % (about.st_mtime_ns // 10**9, about.st_mtime_ns % 10**9, about.st_size)


class JamReader(Reader):
    """One run for a JAM base. `is_unlocked` says that no JAM program runs."""

    form = "--jam"
    is_unlocked = False

    def lock(self) -> ContextManager[None]:
        """The lock of JAM programs, if the base is there."""
        if self.is_unlocked or not exists(self.path + ".jhr"):
            return contextlib.nullcontext()
        return jam_lock(self.path + ".jhr")

    def call(self, *words: str) -> Called:
        with self.lock():
            return super().call(*words)

    def next_path(self) -> str:
        return self.path + ".next"

    def run(self) -> int:
        """Posts, and adds."""
        with locked(self.path + ".lock"):
            posted = self.post()
            self.add_new()
            if exists(self.path + ".jhr"):
                with self.lock():
                    self.disk.stage(self.path + ".seen", (mark_of(self.path + ".jhr") + "\n").encode())
        return self.status(posted)

    def post(self) -> int:
        """Posts what an editor wrote. A device that fails ends the run."""
        if not exists(self.path + ".jhr"):
            return Status.GOOD
        if not may_post(self.station):
            return Status.REFUSED
        with self.lock():
            return self.post_locked()

    def post_locked(self) -> int:
        """Posts under the lock. What has to be converted first is posted from a small base beside this one."""
        mark_sent(self.disk, self.path)
        try:
            outbox = Outbox(self.station, self.path)
        except (jam.NoBase, OSError, struct.error):
            return self.call_post(self.path)  # the program says what is wrong
        if not outbox.has_changed:
            return self.call_post(self.path)
        outbox.write_small()
        status = self.call_post(small(self.path))
        mark_sent(self.disk, self.path)
        for number, why in outbox.refused:
            say_fault(why)
            self.say("refused %d" % number)
        return Status.REFUSED if outbox.refused else status

    def call_post(self, path: str) -> int:
        """Calls the program for a base."""
        places = (self.station.at("links"), self.station.at("base"))
        words = ("post", "--jam", path, "--area", self.area, "--serial", "auto", "--at", "local")
        ran = call(program(), *words, *places, passes_faults=True)
        for line in ran.output.split("\n")[:-1]:
            self.say(line)
        if ran.status > Status.REFUSED:
            raise Ended(ran.status if ran.status <= Status.COMMAND else Status.FAILED)
        return ran.status
