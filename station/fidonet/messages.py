"""The messages of a packet, also of one that is damaged."""
from __future__ import annotations

import re
import struct
from dataclasses import dataclass, field
from typing import Iterator, Optional, Union

from .packets import END, FIELDS_AT, HEADER_SIZE, MESSAGE_TYPE, Packet

MOST_TEXT = 1500000  # of a packet that is tossed
MOST_LOOKED_AT = 4096
LIMITS = (("to", 35), ("from", 35), ("subject", 71))
# A whole message of echomail without anything to repair.
USUAL = re.compile(rb"\x02\x00.{32}[^\0]{0,35}\0[^\0]{0,35}\0[^\0]{0,71}\0(\n*AREA:[^\0]*)\0", re.S)
# How a message begins, with its DateTime: where reading goes on after damage.
DATE = rb"[ 0-9][0-9] [A-Z][a-z][a-z] [0-9][0-9]  [0-9][0-9]:[0-9][0-9]:[0-9][0-9]\0"
BEGIN = re.compile(rb"\x02\x00.{12}" + DATE, re.S)
ANY_DATE = re.compile(DATE)
FIRST_LINE = re.compile(rb"\n*AREA:")


@dataclass(frozen=True)
class Damage:
    """What keeps a place of a packet from being read."""

    place: int
    what: str

    def __str__(self) -> str:
        return "%s at %d" % (self.what, self.place)


@dataclass
class Message:
    """The places of a message in its packet. `end` is the one behind its last 00."""

    place: int
    text: int
    end: int
    is_echomail: bool
    names: list[tuple[int, int]] = field(default_factory=list)
    too_long: list[str] = field(default_factory=list)

    def text_of(self, packet: Packet) -> bytes:
        """The text, without the 00."""
        return bytes(packet.memory[self.text : self.end - 1])

    def name_of(self, packet: Packet, number: int) -> bytes:
        """The addressee, the sender or the subject, cut to what fits."""
        start, end = self.names[number]
        return bytes(packet.memory[start : min(end, start + LIMITS[number][1])])

    def numbers(self, packet: Packet) -> tuple[int, ...]:
        """Node and node, net and net of sender and addressee, attributes, cost."""
        return struct.unpack_from("<6H", packet.memory, self.place + 2)

    def date_of(self, packet: Packet) -> bytes:
        """The DateTime, 20 bytes."""
        return bytes(packet.memory[self.place + 14 : self.place + FIELDS_AT])

    def mended(self, packet: Packet, text: Optional[bytes] = None) -> bytes:
        """The message with names that fit, and perhaps with another text."""
        head = bytes(packet.memory[self.place : self.place + FIELDS_AT])
        names = b"".join(self.name_of(packet, number) + b"\0" for number in range(3))
        return head + names + (self.text_of(packet) if text is None else text) + b"\0"


def read_messages(packet: Packet) -> Iterator[Union[Message, Damage]]:
    """The messages in order, and what is damaged between them."""
    packet.reread()
    place = HEADER_SIZE
    while True:
        usual = USUAL.match(packet.memory, place)
        if usual and usual.end() - usual.start(1) <= MOST_TEXT + 1:
            yield usual_message(packet, place, usual)
            place = usual.end()
            packet.forget(place)
            continue
        if packet.memory[place : place + 2] == END:
            # A spoiled byte may have made this end. All tossers ignore what is behind it.
            found: Union[Message, Damage] = Damage(place, "an end before messages")
            if not ANY_DATE.search(packet.memory, place + 2):
                return
        else:
            found = careful_message(packet, place)
        yield found
        if isinstance(found, Message):
            place = found.end
        else:
            following = place_after(packet, found)
            if following is None:
                return
            place = following


def usual_message(packet: Packet, place: int, usual: re.Match[bytes]) -> Message:
    """A message as almost all are. The places of its names are not looked for."""
    return Message(place, usual.start(1), usual.end(), True)


def with_names(packet: Packet, message: Message) -> Message:
    """The same message with the places of its names."""
    if not message.names:
        place = message.place + FIELDS_AT
        for _ in LIMITS:
            end = packet.memory.find(b"\0", place)
            message.names.append((place, end))
            place = end + 1
    return message


def careful_message(packet: Packet, place: int) -> Union[Message, Damage]:
    """The message at a place. Names that are too long are noted."""
    memory, size = packet.memory, packet.size
    if size - place < 2:
        return Damage(place, "P1 Truncated")
    if memory[place : place + 2] != MESSAGE_TYPE:
        return Damage(place, "P3 NotMessage")
    names, too_long, at = [], [], place + FIELDS_AT
    for name, most in LIMITS:
        end = memory.find(b"\0", at, at + MOST_LOOKED_AT)
        if end < 0:
            return Damage(place, "P1 Truncated" if size - at < MOST_LOOKED_AT else "P4 FieldTooLong")
        if end - at > most:
            too_long.append("%s of %d bytes at %d" % (name, end - at, place))
        names.append((at, end))
        at = end + 1
    end = memory.find(b"\0", at)
    if end < 0:
        return Damage(place, "P1 Truncated")
    if end - at > MOST_TEXT:
        return Damage(place, "P5 TextTooLong")
    inner = BEGIN.search(memory, place + 2, min(end + FIELDS_AT, size))
    if inner and inner.start() <= end:
        return Damage(place, "P3 NotMessage")  # spoiled bytes that took the beginning of a message
    return Message(place, at, end + 1, bool(FIRST_LINE.match(memory, at)), names, too_long)


def place_after(packet: Packet, damage: Damage) -> Optional[int]:
    """Where reading goes on after damage, or nothing."""
    if damage.what == "P5 TextTooLong":
        place = damage.place + FIELDS_AT
        for _ in range(4):  # three names and the text
            place = packet.memory.find(b"\0", place) + 1
        return place
    found = BEGIN.search(packet.memory, damage.place + 2)
    return found.start() if found else None
