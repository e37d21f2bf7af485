"""Disks that stop a run before a change of a file, and say what a power cut leaves."""
from __future__ import annotations

import os
import random
from dataclasses import dataclass, field
from os.path import dirname, isdir, isfile, islink, join, lexists
from typing import Callable, Iterator, Optional

import build
from echonet_station.disk import Content, Disk


class Stop(BaseException):
    """The process is killed, or the power is cut."""


@dataclass
class Inode:
    """The bytes of a file: those that are flushed, if any, and those that were written."""

    written: bytes
    flushed: Optional[bytes] = None


@dataclass
class Change:
    """A change of names that a flush of one of its folders puts on the disk."""

    folders: set[str]
    apply: Callable[[dict[str, Inode]], None]


@dataclass
class Shadow:
    """What the disk has for sure, and what it may have."""

    names: dict[str, Inode] = field(default_factory=dict)  # as programs see them
    durable: dict[str, Inode] = field(default_factory=dict)
    pending: list[Change] = field(default_factory=list)

    def do(self, folders: set[str], apply: Callable[[dict[str, Inode]], None]) -> None:
        """A change of names."""
        apply(self.names)
        self.pending.append(Change(folders, apply))

    def sync(self, folder: str) -> None:
        """A flush of a folder."""
        for change in [it for it in self.pending if folder in it.folders]:
            change.apply(self.durable)
            self.pending.remove(change)

    def after_cut(self, chance: random.Random, share: float) -> dict[str, Inode]:
        """What the disk may have after a power cut: some of the changes, in order."""
        names = dict(self.durable)
        for change in self.pending:
            if chance.random() < share:
                change.apply(names)
        return names


def setting(path: str, inode: Inode) -> Callable[[dict[str, Inode]], None]:
    """Gives a name to a file."""
    return lambda names: names.__setitem__(path, inode)


def removing(path: str, inode: Optional[Inode] = None) -> Callable[[dict[str, Inode]], None]:
    """Takes a name away. After a rename only if the file has its new name: none of its bytes are lost."""

    def apply(names: dict[str, Inode]) -> None:
        if inode is None or list(names.values()).count(inode) > 1:
            names.pop(path, None)

    return apply


class StoppingDisk(Disk):
    """Counts changes. Before one of them it stops, for good. It also notes what a power cut may leave."""

    def __init__(self, top: str, stop_at: int = 0, fault: Optional[OSError] = None) -> None:
        self.top, self.stop_at, self.fault, self.count = top, stop_at, fault, 0
        self.shadow = Shadow()
        for path in files_below(top):
            inode = Inode(build.content(path), build.content(path))
            self.shadow.names[path] = self.shadow.durable[path] = inode

    def step(self) -> None:
        """One change is about to be made."""
        self.count += 1
        if self.fault is not None and self.count == self.stop_at:
            raise self.fault
        if self.fault is None and self.stop_at and self.count >= self.stop_at:
            raise Stop(self.count)

    def inode(self, path: str) -> Inode:
        """The file at a path. One that another process made is not flushed."""
        if path not in self.shadow.names:
            self.shadow.do({dirname(path)}, setting(path, Inode(build.content(path))))
        return self.shadow.names[path]

    def stage(self, path: str, content: Content) -> None:
        self.step()
        super().stage(path, content)
        self.shadow.do({dirname(path)}, setting(path, Inode(build.content(path))))

    def flush(self, path: str) -> None:
        self.step()
        inode = self.inode(path)
        inode.flushed = inode.written

    def append(self, path: str, content: bytes) -> None:
        self.step()
        super().append(path, content)
        if path not in self.shadow.names:
            self.shadow.do({dirname(path)}, setting(path, Inode(b"")))
        inode = self.shadow.names[path]
        inode.written = inode.flushed = build.content(path)

    def put(self, path: str, place: int, content: bytes) -> None:
        self.step()
        inode = self.inode(path)
        super().put(path, place, content)
        inode.written = inode.flushed = build.content(path)

    def rename(self, old: str, new: str) -> None:
        self.step()
        is_file = isfile(old) and not islink(old)
        inode = self.inode(old) if is_file else None
        super().rename(old, new)
        if inode is not None:
            self.shadow.do({dirname(new)}, setting(new, inode))
            self.shadow.do({dirname(old)}, removing(old, inode))

    def set_mode(self, path: str, mode: int) -> None:
        self.step()
        super().set_mode(path, mode)

    def set_time(self, path: str, moment: int) -> None:
        self.step()
        super().set_time(path, moment)

    def link(self, old: str, new: str) -> None:
        self.step()
        inode = self.inode(old)
        super().link(old, new)
        self.shadow.do({dirname(new)}, setting(new, inode))

    def unlink(self, path: str) -> None:
        if lexists(path):
            self.step()
            super().unlink(path)
            self.shadow.do({dirname(path)}, removing(path))

    def sync(self, folder: str) -> None:
        self.step()
        self.shadow.sync(folder)

    def cut(self, chance: random.Random, share: float) -> None:
        """Leaves in the folder what the disk has after a power cut."""
        names = self.shadow.after_cut(chance, share)
        for path in files_below(self.top):
            os.unlink(path)
        made: dict[int, str] = {}
        for path, inode in sorted(names.items()):
            os.makedirs(dirname(path), exist_ok=True)
            if id(inode) in made:
                os.link(made[id(inode)], path)
                continue
            unflushed = chance.choice((b"", inode.written[: len(inode.written) // 2], inode.written))
            build.put(path, unflushed if inode.flushed is None else inode.flushed)
            made[id(inode)] = path


def files_below(top: str) -> Iterator[str]:
    """All files of a folder."""
    for folder, _, names in os.walk(top):
        for name in names:
            if isfile(join(folder, name)):
                yield join(folder, name)


def copy_state(top: str) -> dict[str, tuple[bytes, float]]:
    """The files below a folder."""
    return {path: (build.content(path), os.stat(path).st_mtime) for path in files_below(top)}


def put_state(top: str, state: dict[str, tuple[bytes, float]]) -> None:
    """Makes the files of a folder again."""
    for folder, folders, names in os.walk(top, topdown=False):
        for name in names:
            os.unlink(join(folder, name))
        for name in folders:
            if isdir(join(folder, name)):
                os.rmdir(join(folder, name))
    for path, (content, moment) in state.items():
        os.makedirs(dirname(path), exist_ok=True)
        with open(path, "wb") as file:
            file.write(content)
        os.utime(path, (moment, moment))
