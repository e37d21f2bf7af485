"""Reads the messages of a JAM base (JAM-001). It holds one message at a time."""
from __future__ import annotations

import os
import struct
from typing import BinaryIO, Iterator, NamedTuple, Optional

GONE = 0xffffffff
DELETED = 1 << 31
LOCAL, SENT = 1, 16
MARK = b"JAM\0\1\0\0\0"
FIXED = 1024  # bytes of the header of a base
CHANGES_AT = 8  # its counter of changes
ACTIVE_AT = 12  # its count of messages
ATTRIBUTE_AT = 52  # in the header of a message
HEAD = 76
BUFFER = 32768
NUMBERS, FIELD = struct.Struct("<17I").unpack_from, struct.Struct("<H2xI").unpack_from
# Subfields of a header.
BY, TO, MSGID, REPLY, SUBJECT, PID = 2, 3, 4, 5, 6, 7
KLUDGE, SEEN_BY, PATH, FLAGS, TZUTC = 2000, 2001, 2002, 2003, 2004
# Places in the numbers of a header, which begin after its mark and its revision.
SIZE, WRITTEN, ATTRIBUTE, TEXT_AT, TEXT_SIZE = 0, 7, 11, 13, 14


class Message(NamedTuple):
    """A message: the numbers of its header, its subfields in order, and its text."""
    numbers: tuple[int, ...]
    fields: list[tuple[int, bytes]]
    text: bytes


class NoBase(Exception):
    """A file of the base that cannot be opened."""

    def __init__(self, path: str, reason: str) -> None:
        super().__init__(path, reason)
        self.path, self.reason = path, reason


def opened(path: str) -> BinaryIO:
    """A file of the base, its ending in small or capital letters."""
    capital = path[:-4] + path[-4:].upper()
    try:
        return open(path if os.path.exists(path) or not os.path.exists(capital) else capital, "rb", buffering=BUFFER)
    except (OSError, ValueError) as error:
        raise NoBase(path, str(error)) from error


def piece(file: BinaryIO, place: int, size: int) -> Optional[bytes]:
    """Bytes of a file. None if it does not have them."""
    file.seek(place)
    content = file.read(size)
    return content if len(content) == size else None


def subfields(content: bytes) -> Optional[list[tuple[int, bytes]]]:
    """The subfields of a header. None if they are not whole."""
    fields, at, end = [], 8, len(content)
    while at <= end:
        kind, size = FIELD(content, at - 8)
        fields.append((kind, content[at:at + size]))
        at += 8 + size
    return fields if at == end + 8 else None


def unspoiled(number: int) -> int:
    """A number before CrashMail 1.7 wrote it again: it reads each byte as a signed one."""
    for bits in (8, 16, 24):
        number += (number >> (bits - 1) & 1) << bits
    return number & GONE


def versions(numbers: tuple[int, ...]) -> list[tuple[int, ...]]:
    """The numbers of a header in the file, and before CrashMail wrote them again, up to three times."""
    found = [numbers]
    for _ in range(3):
        found.append(tuple(unspoiled(number) for number in found[-1]))
    return found


class Base:
    """A JAM base. PATH is without an ending."""

    def __init__(self, path: str) -> None:
        self.headers, index, self.texts = (opened(path + ending) for ending in (".jhr", ".jdx", ".jdt"))
        with index:
            entries = index.read()
        entries = entries[:len(entries) // 8 * 8]
        self.entries = [place for _, place in struct.iter_unpack("<2I", entries)]
        self.places = [place for place in self.entries if place != GONE]
        self.end = self.headers.seek(0, os.SEEK_END)
        self.text_end = self.texts.seek(0, os.SEEK_END)

    def __enter__(self) -> Base:
        return self

    def __exit__(self, *_: object) -> None:
        self.headers.close()
        self.texts.close()

    def numbered(self) -> Iterator[tuple[int, int, Message]]:
        """Each good message, with its index entry and the place of its header."""
        for entry, place in enumerate(self.entries):
            numbers = self.head(place) if place != GONE else None
            message = self.message(place, numbers) if numbers else None
            if message is not None:
                yield entry, place, message

    def head(self, place: int) -> Optional[tuple[int, ...]]:
        """The numbers of the header at a place. None without its mark."""
        content = piece(self.headers, place, HEAD)
        return NUMBERS(content, 8) if content and content[:6] == b"JAM\0\1\0" else None

    def messages(self) -> Iterator[Optional[Message]]:
        """Each message of the index, in order; None for a damaged one.

        CrashMail 1.7 spoils headers when it links replies. Its headers and texts are stored one behind another, so the
        right numbers are those that lead from one message to the next. If none do, the numbers count as in the file.
        """
        heads = (self.head(place) for place in self.places)
        last = 0
        numbers = next(heads) if self.places else None
        behind: Optional[tuple[int, ...]] = (0,) * TEXT_AT + (self.text_end,) * 4
        for number, place in enumerate(self.places, 1):
            is_last = number == len(self.places)
            following = behind
            if not is_last:
                following = next(heads)
            if numbers is None:
                yield None
            else:
                next_place = self.end if is_last else self.places[number]
                numbers = self.likely(numbers, next_place - place - HEAD, last, following)
                last = numbers[TEXT_AT] + numbers[TEXT_SIZE]
                yield self.message(place, numbers)
            numbers = following

    @staticmethod
    def likely(numbers: tuple[int, ...], size: int, last: int, following: Optional[tuple[int, ...]]) -> tuple[int, ...]:
        """The version of the numbers that leads from the text before to the text of the following header."""
        if following is not None and numbers[SIZE] == size and numbers[TEXT_AT] == last:
            if last + numbers[TEXT_SIZE] == following[TEXT_AT]:
                return numbers
        begins = [found[TEXT_AT] for found in versions(following)] if following else []
        for found in versions(numbers):
            if found[SIZE] == size and found[TEXT_AT] == last and last + found[TEXT_SIZE] in begins:
                return found
        return numbers

    def message(self, place: int, numbers: tuple[int, ...]) -> Optional[Message]:
        """The message with these numbers. None if a part of it is missing."""
        if place + HEAD + numbers[SIZE] > self.end or numbers[TEXT_AT] + numbers[TEXT_SIZE] > self.text_end:
            return None
        content = piece(self.headers, place + HEAD, numbers[SIZE])
        fields = None if content is None else subfields(content)
        text = piece(self.texts, numbers[TEXT_AT], numbers[TEXT_SIZE])
        return None if fields is None or text is None else Message(numbers, fields, text)


def first_fields(message: Message) -> dict[int, bytes]:
    """The first subfield of each kind."""
    return {kind: content for kind, content in reversed(message.fields)}


def header_of(numbers: tuple[int, ...], fields: list[tuple[int, bytes]]) -> bytes:
    """The bytes of a message's header. Its size is that of the subfields."""
    content = b"".join(struct.pack("<H2xI", kind, len(part)) + part for kind, part in fields)
    return MARK + struct.pack("<17I", len(content), *numbers[1:]) + content
