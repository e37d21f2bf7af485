"""What an editor wrote into a JAM base in another charset than the station posts in.

Such messages are posted from a small base beside it, in which they are converted. Its entries have the numbers of the large
one. What was posted there is then marked as sent in the large one, also after a stop."""
from __future__ import annotations

import struct
from os.path import exists
from typing import NamedTuple

from fidonet import charsets, jam
from fidonet.charsets import Unwritable

from .disk import Disk
from .own_charset import own_or_utf_8
from .station import Station

ENDINGS = (".jdt", ".jdx", ".jlr", ".jhr")  # the header comes last: it makes a base
NAMES = (jam.TO, jam.BY, jam.SUBJECT)
CHRS = b"CHRS:"


class Entry(NamedTuple):
    """A message that waits: its place in the index and in the headers."""

    number: int
    place: int
    message: jam.Message


def small(path: str) -> str:
    """The small base beside a base."""
    return path + ".post"


def waiting(base: jam.Base) -> list[Entry]:
    """The messages that are Local, and neither Sent nor deleted. A damaged base has none."""
    found, count = [], 0
    for number, place, message in base.numbered():
        count += 1
        attribute = message.numbers[jam.ATTRIBUTE]
        if attribute & jam.LOCAL and not attribute & (jam.SENT | jam.DELETED):
            found.append(Entry(number, place, message))
    return found if count == len(base.places) else []


def has_label(message: jam.Message) -> bool:
    """Whether a message names its charset."""
    return any(kind == jam.KLUDGE and part.startswith(CHRS) for kind, part in message.fields) or charsets.has_label(message.text)


def converted(station: Station, message: jam.Message) -> jam.Message:
    """A message as it is posted."""
    names = [index for index, (kind, _) in enumerate(message.fields) if kind in NAMES]
    parts = (message.text, *(message.fields[index][1] for index in names))
    if has_label(message):
        return message
    written = own_or_utf_8(station, parts[0], parts[1:])
    if written.charset is None:
        return message
    fields = list(message.fields)
    for index, part in zip(names, written.fields):
        fields[index] = (fields[index][0], part)
    fields.append((jam.KLUDGE, charsets.line_of(written.charset)[1:]))
    return jam.Message(message.numbers, fields, written.body)


class Outbox:
    """The messages of a base that wait."""

    def __init__(self, station: Station, path: str) -> None:
        self.station = station
        self.path = path
        with open(path + ".jhr", "rb") as file:
            self.head = file.read(jam.FIXED)
        self.good: list[Entry] = []
        self.refused: list[tuple[int, str]] = []
        self.has_changed = False
        with jam.Base(path) as base:
            self.entries = len(base.entries)
            found = waiting(base)
        for entry in found:
            self.add(entry)

    def add(self, entry: Entry) -> None:
        """Converts a message. One that cannot be written is refused."""
        try:
            message = converted(self.station, entry.message)
        except Unwritable as fault:
            self.refused.append((self.first_number() + entry.number, str(fault)))
            self.has_changed = True
            return
        self.has_changed = self.has_changed or message is not entry.message
        self.good.append(Entry(entry.number, entry.place, message))

    def first_number(self) -> int:
        """The number of the first message of the base."""
        return int(struct.unpack_from("<I", self.head, 20)[0]) if len(self.head) >= 24 else 1

    def write_small(self) -> None:
        """Makes the small base. Entries of other messages are gone there."""
        headers, texts = bytearray(self.head.ljust(jam.FIXED, b"\0")), b""
        struct.pack_into("<I", headers, jam.ACTIVE_AT, len(self.good))
        index = [(jam.GONE, jam.GONE)] * self.entries
        for number, _, message in self.good:
            numbers = list(message.numbers)
            numbers[jam.TEXT_AT], numbers[jam.TEXT_SIZE] = len(texts), len(message.text)
            index[number] = (jam.GONE, len(headers))
            headers += jam.header_of(tuple(numbers), message.fields)
            texts += message.text
        entries = b"".join(struct.pack("<2I", *entry) for entry in index)
        for ending, content in zip(ENDINGS, (texts, entries, b"", bytes(headers))):
            self.station.disk.write(small(self.path) + ending, content)


def unmarked(path: str) -> list[tuple[int, int]]:
    """The messages that were posted from the small base and are not marked: the places of their headers, and their attributes."""
    with jam.Base(small(path)) as base:
        posted = {number for number, _, message in base.numbered() if message.numbers[jam.ATTRIBUTE] & jam.SENT}
    with jam.Base(path) as base:
        found = [(place, message.numbers[jam.ATTRIBUTE]) for number, place, message in base.numbered() if number in posted]
    return [(place, attribute) for place, attribute in found if not attribute & jam.SENT]


def mark_sent(disk: Disk, path: str) -> None:
    """Marks what was posted from the small base, and removes that."""
    if exists(small(path) + ".jhr"):
        places = unmarked(path)
        for place, attribute in places:
            disk.put(path + ".jhr", place + jam.ATTRIBUTE_AT, struct.pack("<I", attribute | jam.SENT))
        if places:
            with open(path + ".jhr", "rb") as file:
                count = struct.unpack_from("<I", file.read(jam.FIXED), jam.CHANGES_AT)[0]
            disk.put(path + ".jhr", jam.CHANGES_AT, struct.pack("<I", (count + 1) & 0xFFFFFFFF))
    for ending in reversed(ENDINGS):
        disk.unlink(small(path) + ending)
