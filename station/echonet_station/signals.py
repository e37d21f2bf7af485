"""Signals that end a run. They wait for a program that was called: it is never cut short."""
from __future__ import annotations

import signal
from types import FrameType
from typing import Optional

ENDING = (signal.SIGHUP, signal.SIGINT, signal.SIGTERM)


class Ended(BaseException):
    """A signal ends the run, with the status of a device that failed."""


class Waiting:
    """While a called program runs, a signal is only noted."""

    depth = 0
    has_come = False

    def __enter__(self) -> None:
        Waiting.depth += 1

    def __exit__(self, *_: object) -> None:
        Waiting.depth -= 1
        if Waiting.has_come and not Waiting.depth:
            Waiting.has_come = False
            raise Ended


def come(_: int, __: Optional[FrameType]) -> None:
    """A signal came."""
    if Waiting.depth:
        Waiting.has_come = True
    else:
        raise Ended


def take_signals() -> None:
    """Ends the run by an exception at these signals, so that what it holds is freed. Ignored ones stay ignored."""
    for number in ENDING:
        if signal.getsignal(number) != signal.SIG_IGN:
            signal.signal(number, come)
