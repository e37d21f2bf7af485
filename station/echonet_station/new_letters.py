"""Letters that are written here: each becomes a stored message of netmail/, which the next scan sends. The caller has the
lock of scans."""
from __future__ import annotations

import os
import struct
import time
from dataclasses import dataclass
from os.path import join

from fidonet.addresses import Address
from fidonet.stored import FORM, LOCAL, PRIVATE
from fidonet.stored import NAME as STORED_NAME

from .station import Station

KILL_SENT = 0x0080
FIRST_NUMBER = 2
AGE = 10  # seconds: an editor may be writing a younger file, and the next scan leaves it
MONTHS = "Jan Feb Mar Apr May Jun Jul Aug Sep Oct Nov Dec".split()


@dataclass(frozen=True)
class NewLetter:
    """A letter: the names and the subject fit into their fields."""

    to: Address
    name: bytes
    by_name: bytes
    subject: bytes
    text: bytes
    attributes: int = 0

    def stored(self, own: Address) -> bytes:
        """The letter as a stored message of this time."""
        now, to = time.gmtime(), self.to
        stamp = "%02d %s %02d  %02d:%02d:%02d" % (now.tm_mday, MONTHS[now.tm_mon - 1], now.tm_year % 100, now.tm_hour, now.tm_min, now.tm_sec)
        places = (0, to.node, own.node, 0, own.net, to.net, to.zone, own.zone, to.point, own.point, 0)
        marks = PRIVATE | LOCAL | self.attributes
        head = FORM.pack(self.by_name, self.name, self.subject, stamp.encode(), *places, marks, 0)
        assert struct.unpack_from("<H", head, 186)[0] == marks
        return head + b"\x01TZUTC: 0000\r" + self.text + b"\0"


def write_letter(station: Station, letter: NewLetter) -> str:
    """Writes a letter. Returns its name in netmail/."""
    disk, folder, path = station.disk, station.at("netmail"), station.at("letters", "written.new")
    for name in (folder, station.at("letters")):
        disk.make_folder(name)
    disk.write(path, letter.stored(station.real))
    moment = time.time_ns() - AGE * 1_000_000_000
    disk.set_time(path, moment)
    numbers = (int(found[1]) for found in map(STORED_NAME.fullmatch, os.listdir(folder)) if found)
    number = max((FIRST_NUMBER - 1, *numbers))
    while True:
        number += 1
        name = "%d.msg" % number
        try:
            disk.link(path, join(folder, name))
            break
        except FileExistsError:
            continue
    disk.sync(folder)
    disk.unlink(path)
    return name
