"""Tosses, and then scans."""
from __future__ import annotations

from .running import status_of_command
from .scan import scan
from .station import Station
from .toss import toss


def run(station: Station, _: list[str]) -> int:
    """The command `run`. The scan runs also if the toss failed."""
    return max(status_of_command(toss, station), status_of_command(scan, station))
