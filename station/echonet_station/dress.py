"""Writes into the packets of a scan what their links want: passwords, type 2+, the addresses of points."""
from __future__ import annotations

import os
import re
import struct
from os.path import join
from typing import Iterator, Optional

from fidonet.addresses import Address

from .faults import Status
from fidonet.messages import Damage, read_messages, with_names
from fidonet.packets import END, HEADER_SIZE, PASSWORD, Packet
from fidonet.seen_by import text_without

from .station import Station, names_in

# The scan, and `letters`, name a packet by its link.
SCANNED = re.compile(r"([0-9]+)\.([0-9]+)\.([0-9]+)\..*\.pkt")
PLUS = 1
PLUS_SWAPPED = 0x0100
PRODUCT = 0xFE


def dressed_header(begin: bytes, link: Address, station: Station) -> bytes:
    """The header for a link. Dressing twice is dressing once, since only the name says who the link is."""
    peer = station.peers.peer(link)
    real = station.peers.real_of.get(link, link)
    own = station.real
    new = bytearray(begin)
    if real != link or own != station.own:
        struct.pack_into("<2H", new, 0, own.node, real.node)
        struct.pack_into("<2H", new, 20, own.net, real.net)
        struct.pack_into("<2H", new, 34, own.zone, real.zone)
    if peer.password:
        new[PASSWORD] = peer.password.ljust(8, b"\0")
    if peer.plus or real.point or own.point:
        new[24], new[42], new[43] = PRODUCT, 0, 0
        struct.pack_into("<2H", new, 38, 0, PLUS_SWAPPED)
        struct.pack_into("<5H", new, 44, PLUS, own.zone, real.zone, own.point, real.point)
    return bytes(new)


def has_points(packet: Packet, station: Station) -> bool:
    """Whether a message names a point of this station in its SEEN-BY lines. A packet that is damaged has none."""
    found = False
    for message in read_messages(packet):
        if isinstance(message, Damage):
            return False
        found = found or text_without(message.text_of(packet), station.point_places) is not None
    return found


def stripped(packet: Packet, header: bytes, station: Station) -> Iterator[bytes]:
    """The packet with another header and without points in SEEN-BY lines."""
    yield header
    for message in read_messages(packet):
        if isinstance(message, Damage):
            raise AssertionError("damage at a second reading")
        text = text_without(message.text_of(packet), station.point_places)
        yield with_names(packet, message).mended(packet, text)
    yield END


def remove_twin(station: Station, path: str) -> None:
    """Removes the second name of a packet. A scan that was killed may have left one, and the next scan compares them."""
    about = os.stat(path)
    for name in names_in(station.at("scanned")):
        twin = station.at("scanned", name)
        if name.endswith(".new") and os.path.samestat(os.stat(twin), about):
            station.disk.unlink(twin)
    station.disk.sync(station.at("scanned"))


def dress_packet(station: Station, path: str, link: Address) -> None:
    """Dresses one packet: in place, or, if SEEN-BY lines become shorter, by another file."""
    with Packet(path) as packet:
        if packet.size < HEADER_SIZE:
            return
        header = dressed_header(packet.header(), link, station)
        strips = bool(station.point_places) and link not in station.peers.real_of
        if strips and has_points(packet, station):
            new = station.at("dress.new")
            station.disk.write(new, stripped(packet, header, station))
            remove_twin(station, path)
            station.disk.rename(new, path)
            station.disk.sync(station.at("scanned"))
        elif header != packet.header():
            station.disk.put(path, 0, header)


def link_of(name: str) -> Optional[Address]:
    """The link that a packet is for, by its name."""
    found = SCANNED.fullmatch(name)
    return Address(int(found[1]), int(found[2]), int(found[3])) if found else None


def dress(station: Station, _: list[str]) -> Status:
    """The command `dress`."""
    station.lock("scan.lock")
    return dress_all(station)


def dress_all(station: Station) -> Status:
    """Dresses the packets of scanned/. The caller has the lock."""
    station.load()
    for name in names_in(station.at("scanned")):
        link = link_of(name)
        if link:
            dress_packet(station, join(station.at("scanned"), name), link)
    return station.ending(has_failed=False)
