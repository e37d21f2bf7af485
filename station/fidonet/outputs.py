"""Standard output and standard error of a program. A reader that ends, as `head` does, stops no work."""
from __future__ import annotations

import io
import os
import sys
from typing import Any, Optional


class Outlet(io.RawIOBase):
    """A descriptor that is written to. Nobody who reads it any more is no fault, and any other one is kept for the end."""

    def __init__(self, descriptor: int) -> None:
        super().__init__()
        self.descriptor = descriptor
        self.fault: Optional[OSError] = None
        self.has_ended = False

    def writable(self) -> bool:
        return True

    def fileno(self) -> int:
        return self.descriptor

    def write(self, content: Any) -> int:
        """Writes all bytes, or after a fault none."""
        rest = memoryview(content).cast("B")
        size = len(rest)
        while rest and not self.has_ended:
            try:
                rest = rest[os.write(self.descriptor, rest) :]
            except OSError as fault:
                self.has_ended = True
                if not isinstance(fault, BrokenPipeError):
                    self.fault = fault
        return size


def text_of(outlet: Outlet, errors: str) -> io.TextIOWrapper:
    """A text file of an outlet. Names of files of any bytes can be written."""
    return io.TextIOWrapper(io.BufferedWriter(outlet), encoding="utf-8", errors=errors, newline="\n")


_installed: list[Outlet] = []


def install() -> None:
    """Puts outlets in place of the outputs of Python."""
    _installed[:] = [Outlet(1), Outlet(2)]
    sys.stdout = text_of(_installed[0], "surrogateescape")
    sys.stderr = text_of(_installed[1], "backslashreplace")
    sys.stderr.reconfigure(line_buffering=True)


def fault() -> Optional[OSError]:
    """What kept standard output from being written, after all was."""
    sys.stdout.flush()
    return _installed[0].fault if _installed else None
