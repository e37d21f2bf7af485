"""A packet file in memory, and its header."""
from __future__ import annotations

import errno
import mmap
import os
import struct
import time
import zlib
from dataclasses import dataclass
from types import TracebackType
from typing import Iterable, Iterator, Optional, Type, Union

from .addresses import Address

HEADER_SIZE = 58
STATED_SIZE = 36  # up to the zone of the sender
LEAST_SIZE = 60  # a header, and the end of the messages
PACKET_TYPE = slice(18, 20)
TYPE_2 = MESSAGE_TYPE = b"\2\0"
DATE_AT = 14  # of a message
FIELDS_AT = 34  # of a message: the names begin here, after numbers and DateTime
PASSWORD = slice(26, 34)
END = b"\0\0"
PIECE = 1 << 16
KEPT_IN_MEMORY = 1 << 20
ANY_NET = 65535  # the net of a point's header by FSC-0048
PLUS_BIT = 1


@dataclass(frozen=True)
class Header:
    """Who sent a packet, for whom it is, and whether it states their zones."""

    sender: Address
    destination: Address
    has_sender_zone: bool
    has_destination_zone: bool
    password: bytes


def header_of(begin: bytes, own_zone: int) -> Header:
    """Reads the header of a packet of type 2, 2+ (FSC-0039) or FSC-0048."""
    node, to_node = struct.unpack_from("<2H", begin, 0)
    net, to_net = struct.unpack_from("<2H", begin, 20)
    zone, to_zone, boss_net, swapped = struct.unpack_from("<4H", begin, 34)
    capabilities, plus_zone, to_plus_zone, point, to_point = struct.unpack_from("<5H", begin, 44)
    is_plus = bool(capabilities & PLUS_BIT) and swapped == (capabilities >> 8 | (capabilities & 255) << 8)
    if is_plus:
        zone, to_zone = plus_zone or zone, to_plus_zone or to_zone
        net = boss_net if net == ANY_NET and point else net
    else:
        point = to_point = 0
    return Header(
        sender=Address(zone or own_zone, net, node, point),
        destination=Address(to_zone or own_zone, to_net, to_node, to_point),
        has_sender_zone=zone != 0,
        has_destination_zone=to_zone != 0,
        password=begin[PASSWORD].split(b"\0")[0],
    )


def new_header(by: Address, to: Address, moment: time.struct_time) -> bytes:
    """A header of type 2, as a scan writes it."""
    when = (moment.tm_year, moment.tm_mon - 1, moment.tm_mday, moment.tm_hour, moment.tm_min, moment.tm_sec)
    return struct.pack("<12H10x2H20x", by.node, to.node, *when, 0, 2, by.net, to.net, by.zone, to.zone)


def packed(numbers: tuple[int, ...], date: bytes, names: Iterable[bytes], text: bytes) -> bytes:
    """A message of a packet: node and node, net and net of sender and addressee, attributes, cost; DateTime of 20 bytes;
    addressee, sender and subject; the text."""
    return struct.pack("<7H20s", 2, *numbers, date) + b"".join(name + b"\0" for name in names) + text + b"\0"


def strict_messages(memory: Union[mmap.mmap, bytes]) -> Iterator[Optional[list[tuple[int, int]]]]:
    """The messages up to the first damage, as a tosser reads them: the places of DateTime, addressee, sender, subject and
    text. Then nothing, if there is damage."""
    place = HEADER_SIZE
    while memory[place : place + 2] == MESSAGE_TYPE:
        fields = [(place + DATE_AT, place + FIELDS_AT)]
        end = place + FIELDS_AT
        for most in (36, 36, 72, None):
            start, end = end, memory.find(b"\0", end) if most is None else memory.find(b"\0", end, end + most)
            if end < 0:
                yield None
                return
            fields.append((start, end))
            end += 1
        yield fields
        place = end
    if memory[place : place + 2] != END:
        yield None


def stated_sender(path: str) -> Optional[Address]:
    """The sender that the header of a packet states, with zone 0 if it states none. Nothing, if there is no header."""
    if not os.path.isfile(path):
        return None  # opening a pipe would wait
    try:
        with open(path, "rb") as file:
            begin = file.read(HEADER_SIZE)
    except OSError:
        return None
    if len(begin) < STATED_SIZE or begin[PACKET_TYPE] != TYPE_2:
        return None
    node, net, zone = (struct.unpack_from("<H", begin, place)[0] for place in (0, 20, 34))
    return Address(zone, net, node)


def mapped(file: int) -> mmap.mmap:
    """A file in memory."""
    try:
        return mmap.mmap(file, 0, access=mmap.ACCESS_READ)
    except OSError as fault:
        if fault.errno == errno.ENOMEM:
            raise MemoryError from fault
        raise


class Packet:
    """The bytes of a file. They are mapped, and those that were read leave the memory again."""

    def __init__(self, path: str) -> None:
        self.path = path
        self.begin = 0  # bytes before this place have left the memory
        with open(path, "rb") as file:
            self.size = os.fstat(file.fileno()).st_size
            self.memory: Union[mmap.mmap, bytes] = b""
            if self.size:
                self.memory = mapped(file.fileno())

    def __enter__(self) -> Packet:
        return self

    def __exit__(self, _: Optional[Type[BaseException]], __: Optional[BaseException], ___: Optional[TracebackType]) -> None:
        if isinstance(self.memory, mmap.mmap):
            self.memory.close()

    def is_type_2(self) -> bool:
        """Whether it has a whole header of a type that `toss` reads."""
        return self.size >= HEADER_SIZE and self.memory[PACKET_TYPE] == TYPE_2

    def header(self) -> bytes:
        """The bytes of the header."""
        return bytes(self.memory[:HEADER_SIZE])

    def forget(self, place: int) -> None:
        """Lets the bytes before a place leave the memory, if they are many."""
        if place - self.begin >= KEPT_IN_MEMORY and isinstance(self.memory, mmap.mmap):
            page = place - place % mmap.PAGESIZE
            self.memory.madvise(mmap.MADV_DONTNEED, self.begin, page - self.begin)
            self.begin = page

    def count(self) -> int:
        """How many whole messages it has, by their lengths alone."""
        self.reread()
        count = 0
        for fields in strict_messages(self.memory):
            if fields is not None:
                count += 1
                self.forget(fields[-1][1])
        return count

    def reread(self) -> None:
        """The next reading begins at the front. What an earlier one left in memory leaves it."""
        if isinstance(self.memory, mmap.mmap):
            self.memory.madvise(mmap.MADV_DONTNEED)
        self.begin = 0

    def contains(self, word: bytes) -> bool:
        """Whether it has these bytes anywhere."""
        self.reread()
        for place in range(0, self.size, PIECE):
            if self.memory.find(word, place, place + PIECE + len(word) - 1) >= 0:
                return True
            self.forget(place)
        return False

    def whole(self) -> Iterator[bytes]:
        """All bytes, some at a time."""
        self.reread()
        yield from self.pieces(0, self.size)

    def checksum(self) -> int:
        """The CRC-32 of all bytes."""
        checksum = 0
        for piece in self.whole():
            checksum = zlib.crc32(piece, checksum)
        return checksum

    def pieces(self, start: int, end: int) -> Iterator[bytes]:
        """The bytes from a place to another, some at a time."""
        for place in range(start, end, PIECE):
            yield bytes(self.memory[place : min(place + PIECE, end)])
            self.forget(place)
