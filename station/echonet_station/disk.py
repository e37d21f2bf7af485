"""Changes of files. All changes that have to survive a crash go through a Disk, so that tests can stop between them."""
from __future__ import annotations

import os
from typing import Iterable, Union

Content = Union[bytes, Iterable[bytes]]


class Disk:
    """The files of the system. `write`, `append` and `put` end when the disk has the bytes. A name that is new, changed
    or gone is on the disk after `sync` of its folder."""

    def write(self, path: str, content: Content) -> None:
        """Makes a whole file. A part of it does not stay if the disk is full."""
        self.stage(path, content)
        self.flush(path)

    def stage(self, path: str, content: Content) -> None:
        """Makes a whole file that `flush` puts on the disk. A file that has another name, too, stays as it is there: a kill
        or a power cut may leave a file with its old name and its new one."""
        leave_other_name(path)
        try:
            with open(path, "wb") as file:
                for piece in (content,) if isinstance(content, bytes) else content:
                    file.write(piece)
        except (OSError, MemoryError):
            remove_part(path)
            raise

    def flush(self, path: str) -> None:
        """Puts the bytes of a file on the disk."""
        flush_path(path, os.O_RDONLY)

    def append(self, path: str, content: bytes) -> None:
        """Adds bytes at the end of a file."""
        with open(path, "ab") as file:
            file.write(content)
            file.flush()
            os.fsync(file.fileno())

    def put(self, path: str, place: int, content: bytes) -> None:
        """Writes into a file in place."""
        where = os.open(path, os.O_WRONLY | os.O_CLOEXEC)
        try:
            if os.pwrite(where, content, place) != len(content):
                raise OSError("short write")
            os.fsync(where)
        finally:
            os.close(where)

    def rename(self, old: str, new: str) -> None:
        """Renames a file. A file of the new name is replaced."""
        os.rename(old, new)

    def link(self, old: str, new: str) -> None:
        """Gives a file a second name. A file of that name stays, and is an error."""
        os.link(old, new)

    def set_mode(self, path: str, mode: int) -> None:
        """Says who may use a file."""
        os.chmod(path, mode)

    def set_time(self, path: str, moment: int) -> None:
        """Says when a file changed last, in nanoseconds."""
        os.utime(path, ns=(moment, moment))

    def unlink(self, path: str) -> None:
        """Removes a file, if it is there."""
        try:
            os.unlink(path)
        except FileNotFoundError:
            pass

    def sync(self, folder: str) -> None:
        """Puts the names in a folder on the disk."""
        flush_path(folder, os.O_RDONLY | os.O_DIRECTORY)

    def remove_folder(self, path: str) -> None:
        """Removes a folder and the files in it, if it is there."""
        if os.path.isdir(path):
            for name in os.listdir(path):
                self.unlink(os.path.join(path, name))
            os.rmdir(path)

    def make_folder(self, path: str) -> None:
        """Makes a folder, if it is not there, and those above it."""
        if not os.path.isdir(path):
            os.makedirs(path, exist_ok=True)
            self.sync(os.path.dirname(path))


def flush_path(path: str, flags: int) -> None:
    """Flushes a file or a folder."""
    where = os.open(path, flags | os.O_CLOEXEC)
    try:
        os.fsync(where)
    finally:
        os.close(where)


def leave_other_name(path: str) -> None:
    """Removes a name of a file that has several."""
    try:
        if os.lstat(path).st_nlink > 1:
            os.unlink(path)
    except FileNotFoundError:
        pass


def remove_part(path: str) -> None:
    """Removes a file that could not be written whole. The first fault is the one to report."""
    try:
        os.unlink(path)
    except OSError:
        pass
