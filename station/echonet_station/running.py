"""Ends the work of a command with a status, whatever happens in it."""
from __future__ import annotations

import sys
from typing import TYPE_CHECKING, Callable

from fidonet import outputs

from .faults import Status, Stopped
from .signals import Ended

if TYPE_CHECKING:
    from .station import Station


def say_fault(line: str) -> None:
    """A line on standard error."""
    print("echonet-station: %s" % line, file=sys.stderr, flush=True)


def say_notes(notes: list[str]) -> None:
    """Notes of `echonet` on standard error, each once."""
    for note in dict.fromkeys(notes):
        print(note, file=sys.stderr, flush=True)


def status_of(work: Callable[[], int]) -> int:
    """The status of some work. Whatever Python raises is a failure of the device: its own status 1 means another thing."""
    try:
        return int(work())
    except Stopped as fault:
        if str(fault):
            say_fault(str(fault))
        return fault.status
    except Ended:
        return Status.FAILED
    except OSError as fault:
        say_fault("cannot use %s: %s" % (fault.filename, fault.strerror) if fault.filename else str(fault))
    except Exception as fault:  # pylint: disable=broad-except
        say_fault("%s: %s" % (type(fault).__name__, fault))
    return Status.FAILED


def status_of_command(command: Callable[[Station, list[str]], int], station: Station, is_quiet: bool = False) -> int:
    """The status of a command that another one calls, for the same folder."""
    from .station import Station

    other = Station(station.folder, station.disk)
    other.is_quiet = is_quiet
    return status_of(lambda: command(other, []))


def whole_status_of(work: Callable[[], int]) -> int:
    """The same, after all was printed: if standard output failed, that is a device that failed."""
    status = status_of(work)
    fault = outputs.fault()
    if fault is None:
        return status
    say_fault("cannot use standard output: %s" % fault.strerror)
    return Status.FAILED
