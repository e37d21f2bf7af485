"""Gives packets to toss. Several received files are finished together, so that the disk is flushed less often."""
from __future__ import annotations

import contextlib
import os
import re
import sys
from dataclasses import dataclass, field
from os.path import exists
from typing import Callable, Optional

from .aside import put_aside
from .station import Station

MOST_FILES = 100
MOST_BYTES = 32 << 20
TOSS_NAME = re.compile(r"([0-9]{8})\.")


@dataclass
class Output:
    """A packet for toss, with the name that it came with. Its file may be the received one itself."""

    came: str
    path: str
    number: str
    has_own_name: bool = False  # the received file has another one


@dataclass
class Received:
    """A file of gate/. It goes after its outputs are on the disk: to bad/ if there is a reason."""

    number: str
    path: str
    came: str
    outputs: list[Output] = field(default_factory=list)
    why: Optional[str] = None
    sender: str = "-"
    must_wait: bool = False


class Passing:
    """The received files that are treated but not finished."""

    def __init__(self, station: Station) -> None:
        self.station = station
        self.disk = station.disk
        self.files: list[Received] = []
        self.bytes = 0
        self.has_failed = False
        found = map(TOSS_NAME.match, os.listdir(station.at("tossing")))
        self.last = max((int(name[1]) for name in found if name), default=0)

    def next_number(self) -> str:
        """The next number in tossing/."""
        self.last += 1
        return "%08d" % self.last

    def staged(self, number: str) -> str:
        """Where a packet is written before it gets its name."""
        return self.station.at("gate", number + ".new")

    def add(self, received: Received, size: int) -> None:
        """Adds a file that is treated. Many are finished."""
        self.files.append(received)
        self.bytes += size
        if len(self.files) >= MOST_FILES or self.bytes >= MOST_BYTES:
            self.finish()

    def fail(self, received: Received, fault: BaseException) -> None:
        """Reports that a file stays for the next run. What was written of it goes."""
        cause = getattr(fault, "strerror", None) or str(fault) or type(fault).__name__
        print("echonet-station: gate/%s.in: %s" % (received.number, cause), file=sys.stderr, flush=True)
        self.has_failed = True
        for output in received.outputs:
            if output.path != received.path:
                with contextlib.suppress(OSError):
                    self.disk.unlink(output.path)

    def finish(self) -> None:
        """Names the outputs, flushes, and only then removes the files that they are made of."""
        files, self.files, self.bytes = self.files, [], 0
        files = self.each(files, self.prepare)
        files = self.each(files, self.flush)
        files = self.synced(files)
        files = self.each(files, self.name)
        files = self.synced(files)
        self.each(files, self.end)

    def each(self, files: list[Received], step: Callable[[Received], None]) -> list[Received]:
        """Takes a step with each file. Returns those with which it did not fail."""
        good = []
        for received in files:
            try:
                step(received)
                good.append(received)
            except OSError as fault:
                self.fail(received, fault)
        return good

    def synced(self, files: list[Received]) -> list[Received]:
        """Puts the names in tossing/ on the disk. If that fails, all files stay."""
        if any(received.outputs for received in files):
            try:
                self.disk.sync(self.station.at("tossing"))
            except OSError as fault:
                for received in files:
                    self.fail(received, fault)
                return []
        return files

    def prepare(self, received: Received) -> None:
        """Writes the name that each output came with. That of the received file is on the disk already."""
        for output in received.outputs:
            known = self.station.at("gate", received.number + ".name")
            if output.came == received.came and exists(known):
                self.disk.link(known, self.name_file(output))
            else:
                self.disk.stage(self.name_file(output), os.fsencode(output.came))
                output.has_own_name = True

    def flush(self, received: Received) -> None:
        """Flushes the outputs, after all names were written: one flush of a system like ext4 then does most of the
        work."""
        for output in received.outputs:
            if output.has_own_name:
                self.disk.flush(self.name_file(output))
            if output.path != received.path:
                self.disk.flush(output.path)

    def name_file(self, output: Output) -> str:
        """The file with the name that an output came with."""
        return self.station.at("tossing", output.number + ".name")

    def name(self, received: Received) -> None:
        """Moves the outputs to toss."""
        for output in received.outputs:
            self.disk.rename(output.path, self.station.at("tossing", output.number + ".pkt"))

    def end(self, received: Received) -> None:
        """Puts the file aside, or removes it. Its name and marks go later, when this is on the disk."""
        if received.why is not None:
            put_aside(self.station, received.path, received.came, received.why, received.sender)
        else:
            self.disk.unlink(received.path)
