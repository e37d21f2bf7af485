"""Calls of `echonet`."""
from __future__ import annotations

import os
import subprocess
from typing import NamedTuple, Optional

from .faults import Status, Stopped
from .signals import Waiting

KILLED = 128  # as a shell counts signals
NOTE = "echonet: note: "  # what a line begins with that says in words what a fault is, where, and what to do


class Called(NamedTuple):
    """How a call ended, and what it printed."""

    status: int
    output: str
    faults: str

    def first_line(self) -> str:
        """What it printed first, in its output or else on its standard error."""
        return (self.output + self.faults).strip().split("\n")[0]

    def notes(self) -> list[str]:
        """The notes on its faults."""
        return [line for line in self.faults.split("\n") if line.startswith(NOTE)]

    def stopped(self, notes: Optional[list[str]] = None) -> Stopped:
        """The end of a run that needed this call: its fault, or else what it printed first, and the notes."""
        status = Status.REFUSED if self.status == Status.REFUSED else Status.FAILED
        lines = [line for line in (self.faults + self.output).split("\n") if line and not line.startswith(NOTE)]
        return Stopped(status, "\n".join([*lines[:1], *(self.notes() if notes is None else notes)]))


# Descriptors of locks that a called program keeps: if this process is killed, the next run waits for that program.
kept_locks: list[int] = []


def program() -> str:
    """The program `echonet` of the PATH, or the one that ECHONET names."""
    return os.environ.get("ECHONET", "echonet")


def status_of(returncode: int) -> int:
    """The status as a shell says it."""
    return returncode if returncode >= 0 else KILLED - returncode


def call(*words: str, given: Optional[bytes] = None, passes_faults: bool = False) -> Called:
    """Runs a program, with these bytes as its standard input. Its standard error may be that of this process."""
    with Waiting():
        ran = subprocess.run(
            words,
            input=given,
            stdin=None if given is not None else subprocess.DEVNULL,
            stdout=subprocess.PIPE,
            stderr=None if passes_faults else subprocess.PIPE,
            pass_fds=tuple(kept_locks),
            check=False,
            start_new_session=False,
        )
    return Called(status_of(ran.returncode), os.fsdecode(ran.stdout), os.fsdecode(ran.stderr or b""))
