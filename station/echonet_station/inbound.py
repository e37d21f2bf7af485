"""Takes received files in: from the mailer's folder to gate/, under numbers."""
from __future__ import annotations

import os
import stat
import time
from os.path import join, lexists
from typing import Optional

from .aside import is_same
from .bundles import BUNDLE_NAME, END_SIZE, NO_END, Kind, fault_of_zip, kind_of
from .disk import Disk
from fidonet.packets import HEADER_SIZE, Packet, header_of

from .printing import shown_path
from .station import Station, names_in

YOUNG = 600  # seconds in which a damaged bundle may still be arriving
AHEAD = 60  # seconds that another clock may be ahead


def is_young(path: str) -> bool:
    """Whether a file changed a short time ago."""
    return -AHEAD < time.time() - os.stat(path).st_mtime < YOUNG


def is_packet_name(name: str) -> bool:
    """Whether a file has the name of a packet."""
    return name.lower().endswith(".pkt")


def open_plain(path: str) -> Optional[int]:
    """Opens a file of the mailer, or nothing if it is no regular file or cannot be read. It never waits."""
    try:
        if not stat.S_ISREG(os.lstat(path).st_mode):
            return None
        return os.open(path, os.O_RDONLY | os.O_NONBLOCK | os.O_NOFOLLOW | os.O_CLOEXEC)
    except OSError:
        return None


def begin_of(path: str) -> bytes:
    """The first bytes of a file, as many as a header has."""
    where = open_plain(path)
    if where is None:
        return b""
    with os.fdopen(where, "rb") as file:
        return file.read(HEADER_SIZE)


def is_mine(station: Station, path: str) -> bool:
    """Whether this station takes a packet. One station of a shared folder takes what none is named for."""
    peers = station.peers
    if not (peers.leaves or peers.leaves_all):
        return True
    begin = begin_of(path)
    if len(begin) < HEADER_SIZE:
        return not peers.leaves_all
    destination = header_of(begin, station.own.zone).destination
    if station.is_own(destination) or destination in peers.fake_of:
        return True
    return not peers.leaves_all and destination not in peers.leaves


def is_arriving(station: Station, path: str) -> bool:
    """Whether a zip without its end changed a short time ago. It says so."""
    where = open_plain(path)
    if where is None:
        return False
    with os.fdopen(where, "rb") as file:
        size = os.fstat(where).st_size
        may_be_zip = size < END_SIZE or kind_of(file.read(16)) is Kind.ZIP
        if size == 0 or not may_be_zip or fault_of_zip(file, size) != NO_END or not is_young(path):
            return False
    station.say("waits %s: no end yet" % shown_path(os.path.basename(path)))
    return True


def taken(station: Station) -> list[str]:
    """The names of the files that this station takes."""
    names = []
    for name in names_in(station.inbound):
        path = join(station.inbound, name)
        if is_packet_name(name):
            is_taken = is_mine(station, path)
        else:
            is_bundle = BUNDLE_NAME.search(name) is not None and not station.peers.leaves_all
            is_taken = is_bundle and not is_arriving(station, path)
        if is_taken:
            names.append(name)
    return names


def take_in(station: Station) -> None:
    """Moves files to gate/. All names that they came with are on the disk before the first one moves."""
    disk, folder = station.disk, station.at("gate")
    moves, number = [], 0
    for name in taken(station):
        number = next_free(folder, number)
        place = join(folder, "%08d" % number)
        disk.stage(place + ".name", os.fsencode(name))
        moves.append((join(station.inbound, name), place))
    for _, place in moves:
        disk.flush(place + ".name")
    if moves:
        disk.sync(folder)
    for path, place in moves:
        move_in(disk, path, place)


def move_in(disk: Disk, path: str, place: str) -> None:
    """Moves one file, if the mailer left it there."""
    try:
        disk.rename(path, place + ".in")
    except FileNotFoundError:
        pass


def next_free(folder: str, number: int) -> int:
    """The next number that no received file has."""
    number += 1
    while lexists(join(folder, "%08d.in" % number)):
        number += 1
    return number


def give_back(station: Station, packet: Packet) -> None:
    """Gives a packet out of a bundle to the station that it is for: back to the mailer's folder, never over a file."""
    disk, path = station.disk, station.at("gate", "back.new")
    disk.write(path, packet.whole())
    number = packet.checksum()
    while True:
        name = join(station.inbound, "%08x.pkt" % (number & 0xFFFFFFFF))
        try:
            disk.link(path, name)
            break
        except FileExistsError:
            if is_same(path, name):
                break
            number += 1
    disk.sync(station.inbound)
    disk.unlink(path)
