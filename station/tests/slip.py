"""A slip: care that is taken away from the station, and the test that sees it."""
from __future__ import annotations

from dataclasses import dataclass


@dataclass(frozen=True)
class Slip:
    """What is wrong, the file, the lines that are right and those that replace them, and the test that sees it."""

    what: str
    file: str
    right: str
    wrong: str
    test: str
