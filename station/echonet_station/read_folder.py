"""A reader's folder of stored messages.

What an editor wrote (Local, not Sent, and under no id of the base) is posted, and moved to posted/. A refused message goes to
refused/, with the fault and the note on it in NAME.why. Then the new messages of the base are added. `next` has the number of
the message with which the next run begins. A file waits that changed in the last two seconds or has no 00 at its end: an
editor may still write it.

Before a file is posted, `posting` names the file and its serial. If a run is stopped between posting a file and moving it,
the next run finds that posting in the base, and moves the file. If the base cannot be read, the run ends before it posts
anything."""
from __future__ import annotations

import os
import re
import stat
import sys
import time
from os.path import exists, isfile, join, lexists
from typing import Optional

from fidonet.charsets import Unwritable
from fidonet.stored import LOCAL, SENT, Stored

from .calls import Called, call, program
from .counts import may_post
from .faults import Status
from .list_heads import Head, heads_in, printed
from .locks import locked
from .own_charset import as_stored
from .reading import Ended, Reader
from .running import say_fault
from .station import CONTROL, names_in

MESSAGE = re.compile(r"(?!\.).*\.msg", re.I | re.S)
SERIAL_TAKEN = "echonet: B4 "
WRITING = 2_000_000_000  # nanoseconds
DIGITS = re.compile(r"([0-9]+)")


def natural(name: str) -> list[tuple[int, str]]:
    """Orders names by the numbers in them."""
    return [(int(part), "") if part.isdigit() else (-1, part) for part in DIGITS.split(name)]


class FolderReader(Reader):
    """One run for a folder."""

    form = "--msg"

    def run(self) -> int:
        """Posts, and adds. What could not be read is looked at again by the next run."""
        self.unread = 0
        self.must_look_again = False
        self.last = 0
        self.disk.make_folder(os.path.abspath(self.path))
        self.path = os.path.realpath(self.path)
        with locked(join(self.path, "reader.lock")):
            return self.run_locked()

    def run_locked(self) -> int:
        """The same, under the lock of the folder."""
        seen = join(self.path, "seen")
        self.mark_time(seen + ".new", time.time_ns() - WRITING)
        if not exists(seen):
            self.mark_time(seen, 0)
        wanted = self.find_wanted(os.stat(seen).st_mtime_ns, os.stat(seen + ".new").st_mtime_ns)
        if wanted or exists(join(self.path, "posting")):
            if may_post(self.station):
                self.post_wanted(wanted)
            else:
                self.unread = Status.REFUSED
        self.add_new()
        if self.unread:
            return self.unread
        if not self.must_look_again:
            self.disk.rename(seen + ".new", seen)
        return self.status()

    def mark_time(self, path: str, moment: int) -> None:
        """Makes an empty file of a moment, in nanoseconds."""
        self.disk.stage(path, b"")
        self.disk.set_time(path, moment)

    def next_path(self) -> str:
        return join(self.path, "next")

    def find_wanted(self, before: int, limit: int) -> list[Stored]:
        """The files that an editor wrote and finished, of those that changed since two seconds before the last run began:
        file systems keep no finer time."""
        wanted = []
        for name in sorted(filter(MESSAGE.fullmatch, names_in(self.path)), key=natural):
            if CONTROL.search(name):
                continue
            try:
                about = os.lstat(join(self.path, name))
                if not stat.S_ISREG(about.st_mode) or about.st_ctime_ns <= before:
                    continue
                if about.st_mtime_ns > limit:
                    self.must_look_again = True
                    continue
                found = self.file_of(name)
            except FileNotFoundError:
                continue
            except OSError:
                self.unread = Status.FAILED
                continue
            if found:
                wanted.append(found)
        return wanted

    def file_of(self, name: str) -> Optional[Stored]:
        """A file, if it is to be posted."""
        path = join(self.path, name)
        with open(path, "rb") as file:
            found = Stored(name, file.read())
        attributes = found.attributes()
        if not attributes & LOCAL or attributes & SENT:
            return None
        if not found.content.endswith(b"\0"):
            say_fault("%s waits: it has no 00 at its end" % path)
            self.must_look_again = True
            return None
        return found

    def post_wanted(self, wanted: list[Stored]) -> None:
        """Posts files, except for those with an id of the base."""
        self.heads = self.read_base()
        self.ids = {head.id for head in self.heads}
        self.finish_posting()
        for file in wanted:
            if not exists(join(self.path, file.name)):
                continue
            found = file.id()
            if found and printed(found) in self.ids:
                continue
            self.post_one(file)

    def read_base(self) -> list[Head]:
        """The ids of the area. If the base cannot be read, the run ends as `list` does."""
        if not lexists(self.station.at("base")):
            return []
        ran = self.call("list", "--explain", "--area", self.area, self.station.at("base"))
        if ran.status:
            raise Ended(min(ran.status, Status.COMMAND))
        return heads_in(ran.output)

    def finish_posting(self) -> None:
        """Moves the file that a stopped run was posting, if the base has that posting."""
        path = join(self.path, "posting")
        if not exists(path):
            return
        with open(path, "rb") as note:
            serial, _, name = os.fsdecode(note.read()).rstrip("\n").partition("\n")
        file = join(self.path, name)
        if name and isfile(file):
            with open(file, "rb") as content:
                names = self.names_of(Stored(name, content.read()))
            for head in self.heads:
                if head.is_own and head.id.endswith(" " + serial) and head.names in names:
                    self.put_aside(name, "posted")
                    self.say("posted %s %s" % (head.area, head.id))
                    break
        self.unmark()

    def names_of(self, file: Stored) -> list[tuple[str, str, str]]:
        """Addressee, author and subject as the base would have them, or as scripts of an older station posted them."""
        fields = [(file.field("to"), file.field("from"), file.field("subject"))]
        try:
            fields.append(as_stored(self.station, file)[0])
        except Unwritable:
            pass
        return [(printed(it[0]), printed(it[1]), printed(it[2])) for it in fields]

    def post_one(self, file: Stored) -> None:
        """Posts a file. If the base has a message with the serial, in any area, it tries the next serial."""
        try:
            fields, text = as_stored(self.station, file)
        except Unwritable as fault:
            self.refuse(file, "echonet-station: %s\n" % fault)
            return
        path = join(self.path, file.name)
        if text != file.text():
            path = join(self.path, "posting.text")
            self.disk.write(path, file.with_fields(fields, text))
        ran = self.try_serials(file, path)
        if ran.status == Status.GOOD:
            self.put_aside(file.name, "posted")
            self.say((ran.output + ran.faults).rstrip("\n"))
        elif ran.status == Status.REFUSED:
            self.refuse(file, ran.output + ran.faults)
        else:
            sys.stderr.write(ran.output + ran.faults)
            raise Ended(ran.status if ran.status <= Status.COMMAND else Status.FAILED)
        self.unmark()

    def try_serials(self, file: Stored, path: str) -> Called:
        """Posts under the first serial that no message has."""
        places = (self.station.at("links"), self.station.at("base"))
        while True:
            serial = self.next_serial()
            self.mark(serial, file.name)
            words = ("post", "--explain", "--msg", path, "--area", self.area, "--serial", serial, "--at", "local")
            ran = call(program(), *words, *places)
            if ran.status != Status.REFUSED or SERIAL_TAKEN not in ran.faults:
                return ran

    def refuse(self, file: Stored, told: str) -> None:
        """Puts a file aside, with the reason."""
        name = self.put_aside(file.name, "refused")
        self.disk.write(join(self.path, "refused", name + ".why"), os.fsencode(told))
        self.say("put aside %s: %s" % (name, told.split("\n")[0]))

    def put_aside(self, name: str, folder: str) -> str:
        """Moves a file to a folder, under a free name. Then it is on the disk there."""
        place = join(self.path, folder)
        self.disk.make_folder(place)
        free, number = name, 0
        while lexists(join(place, free)):
            number += 1
            free = "%s.%d" % (name, number)
        self.disk.rename(join(self.path, name), join(place, free))
        self.disk.sync(place)
        self.disk.sync(self.path)
        return free

    def next_serial(self) -> str:
        """The clock's count of seconds, or the first number after it that this run did not try and the area does not
        have."""
        number = max(int(time.time()), self.last + 1)
        taken = {found.rsplit(" ", 1)[-1] for found in self.ids}
        while "%08x" % (number % (1 << 32)) in taken:
            number += 1
        self.last = number
        return "%08x" % (number % (1 << 32))

    def mark(self, serial: str, name: str) -> None:
        """Notes which file is posted under which serial. The note is on the disk before the posting."""
        path = join(self.path, "posting")
        self.disk.write(path + ".new", os.fsencode("%s\n%s\n" % (serial, name)))
        self.disk.rename(path + ".new", path)
        self.disk.sync(self.path)

    def unmark(self) -> None:
        """Removes that note."""
        for name in ("posting", "posting.text"):
            self.disk.unlink(join(self.path, name))
        self.disk.sync(self.path)
