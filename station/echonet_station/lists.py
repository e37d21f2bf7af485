"""Lists of ids that stations send each other for a repair, and the packets that answer them."""
from __future__ import annotations

import os
import re
from dataclasses import dataclass
from os.path import join, lexists
from typing import Optional

from fidonet.addresses import Address, address_of

from .calls import Called, call, program
from .faults import Status, Stopped
from .printing import shown_path
from .station import Station, names_in

ADDRESS = r"([0-9]{1,5})\.([0-9]{1,5})\.([0-9]{1,5})(?:\.([0-9]{1,5}))?"
NAME = re.compile(ADDRESS + "-" + ADDRESS + r"\.([0-9a-f]{8})\.(?:ask|([0-9]+)\.ids)")
PACKET_LINE = re.compile(r"packet \S+ ([0-9]+) messages ")
LISTS_FAULTS = ("not linked ", "list line ", "file too large ")
MOST_FIRST_LINE = 1024


class Refused(Exception):
    """A list cannot be used. The line says why."""


@dataclass(frozen=True)
class ListName:
    """The name of a list: who sent it to whom, and the number of the question. An answer says how many messages go with
    it, in the packet NUMBER.pkt."""

    sender: Address
    receiver: Address
    number: str
    messages: Optional[int] = None

    def __str__(self) -> str:
        ending = "ask" if self.messages is None else "%d.ids" % self.messages
        return "%s-%s.%s.%s" % (dotted(self.sender), dotted(self.receiver), self.number, ending)


def dotted(address: Address) -> str:
    """An address with points only, as a part of a name."""
    return re.sub("[:/]", ".", str(address))


def address_in(parts: tuple[Optional[str], ...]) -> Optional[Address]:
    """The address of the parts of a name."""
    point = ".%s" % parts[3] if parts[3] else ""
    return address_of("%s:%s/%s%s" % (parts[0], parts[1], parts[2], point), may_be_point=True)


def list_name(name: str) -> Optional[ListName]:
    """The parts of a name, if it is that of a list."""
    found = NAME.fullmatch(name)
    if not found:
        return None
    parts = found.groups()
    sender, receiver = address_in(parts[0:4]), address_in(parts[4:8])
    if sender is None or receiver is None:
        return None
    return ListName(sender, receiver, str(parts[8]), None if parts[9] is None else int(parts[9]))


def area_of(path: str) -> str:
    """The area that a list names in its first line, as it is printed."""
    with open(path, "rb") as file:
        line = file.readline(MOST_FIRST_LINE)
    word, _, tag = line.rstrip(b"\r\n").partition(b" ")
    if word != b"area" or not tag:
        raise Refused("list line 1")
    return os.fsdecode(tag)


def ids_in(text: bytes) -> set[bytes]:
    """The lines with ids of a list."""
    return {line.rstrip(b"\r") for line in text.split(b"\n") if line.startswith(b"id ")}


def fault_of(ran: Called) -> Exception:
    """The fault of a call: of the list, or else one that ends the run."""
    line = ran.first_line()
    if line.startswith("echonet: "):
        line = line[len("echonet: ") :]
    if line.startswith(LISTS_FAULTS):
        return Refused(line)
    return Stopped(Status.REFUSED if ran.status == Status.REFUSED else Status.FAILED, line)


def has_base(station: Station) -> bool:
    """Whether the station has a base yet."""
    return lexists(station.at("base"))


def word_of(tag: str) -> str:
    """A tag as a word of a command line. Link files are read byte for byte."""
    return os.fsdecode(tag.encode("latin-1"))


def own_list(station: Station, tag: str) -> bytes:
    """The list of this station. Without a base it has no ids."""
    if not has_base(station):
        return b"area %s\nend 0 messages, 0 without id\n" % os.fsencode(shown_path(word_of(tag)))
    ran = call(program(), "list", "--ids", "--area", word_of(tag), station.at("base"))
    if ran.status:
        raise fault_of(ran)
    return os.fsencode(ran.output)


def make_packet(station: Station, link: Address, tag: str, listed: Optional[str] = None) -> int:
    """Makes the packet answers/*.pkt for a link: what the list at a path lacks, or all. Returns how many messages it has.
    Without a message there is no packet."""
    clear(station)
    if not has_base(station):
        return 0
    words = ("--all",) if listed is None else ("--has", listed)
    places = (station.at("links"), station.at("base"), station.at("answers"))
    ran = call(program(), "resend", *words, "--area", word_of(tag), "--to", str(link), "--at", "now", *places)
    if ran.status:
        raise fault_of(ran)
    found = PACKET_LINE.match(ran.output)
    return int(found[1]) if found else 0


def clear(station: Station) -> None:
    """Empties the folder of unfinished packets and lists."""
    folder = station.at("answers")
    station.disk.make_folder(folder)
    for name in names_in(folder):
        station.disk.unlink(join(folder, name))


def send_packet(station: Station, link: Address, name: str) -> None:
    """Gives the packet of `make_packet` to the scan under this name, if there is one."""
    for found in names_in(station.at("answers")):
        if found.endswith(".pkt"):
            station.disk.flush(station.at("answers", found))
            send(station, link, station.at("answers", found), name)


def send_list(station: Station, link: Address, name: ListName, text: bytes) -> None:
    """Gives a list to the scan."""
    clear(station)
    path = station.at("answers", "list")
    station.disk.write(path, text)
    send(station, link, path, "as-%s" % name)


def send(station: Station, link: Address, path: str, name: str) -> None:
    """Moves a file to scanned/. There the first numbers of its name say for which link it is. `as-` says that it is handed
    over under the name that follows, and not under a new one."""
    station.disk.make_folder(station.at("scanned"))
    station.disk.rename(path, station.at("scanned", "%s.%s" % (dotted(link), name)))
    station.disk.sync(station.at("scanned"))


def name_to(station: Station, link: Address, number: str, messages: Optional[int] = None) -> ListName:
    """The name of a list for a link. Points have their own addresses there, which both sides know."""
    return ListName(station.real, station.peers.real_of.get(link, link), number, messages)
