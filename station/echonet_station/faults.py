"""The statuses of a run, and the faults that end one."""
from enum import IntEnum


class Status(IntEnum):
    """How a run ended. The scripts and `echonet` have the same statuses."""

    GOOD = 0
    HAND = 1  # something was put aside, or needs a hand
    REFUSED = 2  # an input was refused
    FAILED = 3  # a device or memory failed
    COMMAND = 4  # the command line was refused


class Stopped(Exception):
    """Ends a run with a status and a line that says why."""

    def __init__(self, status: Status, line: str) -> None:
        super().__init__(line)
        self.status = status
