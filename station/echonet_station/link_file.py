"""The link file under its lock, and its changes."""
from __future__ import annotations

import fcntl
import os
from types import TracebackType
from typing import IO, Optional, Type

from .calls import Called, call, program
from .faults import Stopped
from .printing import shown_path
from .station import Station
from .whole_files import mode_of


def locked(path: str) -> IO[bytes]:
    """A file under its lock. If another was put there while this waited, that one has to be locked."""
    while True:
        file = open(path, "r+b")
        fcntl.flock(file, fcntl.LOCK_EX)
        try:
            if os.path.samestat(os.fstat(file.fileno()), os.stat(path)):
                return file
        except OSError:
            file.close()
            raise
        file.close()


def notes_on(path: str, ran: Called) -> list[str]:
    """The notes on a file that `echonet links` did not take. On a fault in a line `echonet check` has one."""
    return ran.notes() or call(program(), "check", "--all", "--explain", path).notes()


def refusal(path: str, name: str) -> Optional[Stopped]:
    """Why `echonet links` refuses a file that is to have another name, which people are told."""
    ran = call(program(), "links", "--explain", path)
    if not ran.status:
        return None
    fault = ran.stopped(notes_on(path, ran))
    return Stopped(fault.status, str(fault).replace(shown_path(path), name))


class LinkFile:
    """The link file of a station. Whoever has it, changes it: other runs wait."""

    def __init__(self, station: Station) -> None:
        self.station = station
        self.path = station.at("links")
        self.file: Optional[IO[bytes]] = None
        self.text = b""

    def __enter__(self) -> LinkFile:
        self.file = locked(self.path)
        self.text = self.file.read()
        return self

    def __exit__(self, _: Optional[Type[BaseException]], __: Optional[BaseException], ___: Optional[TracebackType]) -> None:
        if self.file:
            self.file.close()

    def install(self, text: bytes) -> None:
        """Replaces the file, if `echonet links` accepts the new one. The lock goes over to that."""
        if text == self.text:
            return
        disk, new = self.station.disk, self.path + ".new"
        try:
            self.make(new, text)
            file = locked(new)
        except (OSError, Stopped):
            disk.unlink(new)
            raise
        try:
            disk.rename(new, self.path)
            disk.sync(self.station.folder)
        except BaseException:
            file.close()
            raise
        if self.file:
            self.file.close()
        self.file, self.text = file, text

    def make(self, path: str, text: bytes) -> None:
        """Writes the new file, on the disk, if it has no fault."""
        disk = self.station.disk
        disk.stage(path, text)
        disk.set_mode(path, mode_of(self.path))
        fault = refusal(path, self.path)
        if fault:
            raise fault
        disk.flush(path)
