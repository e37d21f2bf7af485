"""The link files of other systems, in the folder net/ of a station."""
from __future__ import annotations

import re
from dataclasses import dataclass
from os.path import isfile, join
from typing import NamedTuple, Optional

from fidonet.addresses import Address

from .calls import call, program
from .faults import Status, Stopped
from .link_file import notes_on
from .link_lines import owner_of
from .printing import shown_path
from .station import Station, names_in
from .whole_files import content_of

FOLDER = "net"
LINE_FAULT = re.compile(r":([0-9]+): (L[0-9] \w+) '.*'$")
SEEN = re.compile(r"seen\.[0-9]+\.[0-9]+\.[0-9]+")


@dataclass(frozen=True)
class NetFile:
    """A link file of net/."""

    name: str
    owner: Address
    text: bytes


def shown_name(name: str) -> str:
    """How people are told of a file of the folder."""
    return "%s/%s" % (FOLDER, shown_path(name))


def paths_in(station: Station) -> list[str]:
    """The files of the folder, in order."""
    folder = station.at(FOLDER)
    return [path for path in (join(folder, name) for name in names_in(folder)) if isfile(path)]


class Fault(NamedTuple):
    """What is wrong with a link file, in a line and in the notes on it."""

    line: str
    notes: list[str]


def fault_of(path: str) -> Optional[Fault]:
    """What is wrong with a link file."""
    ran = call(program(), "links", "--explain", path)
    if not ran.status:
        return None
    notes = notes_on(path, ran)
    found = LINE_FAULT.search(ran.output.split("\n")[0])
    if found:
        return Fault("%s line %s" % (found[2], found[1]), notes)
    line = ran.first_line()
    if ran.status != Status.REFUSED and "cannot use" not in line:
        raise Stopped(Status.FAILED, line)
    return Fault(line.replace("echonet: ", "", 1), notes)


class NetFiles:
    """The files without fault, and a line for each that was left out, with notes."""

    def __init__(self, station: Station) -> None:
        paths = paths_in(station)
        self.has_any = bool(paths)
        self.left_out: list[str] = []
        self.notes: list[str] = []
        self.files: list[NetFile] = []
        are_good = bool(paths) and call(program(), "links", *paths).status == Status.GOOD
        for path in paths:
            fault = None if are_good else fault_of(path)
            text = content_of(path) if fault is None else b""
            owner = owner_of(text)
            name = path[len(station.at(FOLDER)) + 1 :]
            if owner is not None:
                self.files.append(NetFile(name, owner, text))
            else:
                self.left_out.append("left out %s: %s" % (shown_name(name), fault.line if fault else "no own address"))
                self.notes += [note.replace(shown_path(path), shown_name(name)) for note in (fault.notes if fault else ())]
