"""Stored messages, N.msg (FTS-0001)."""
from __future__ import annotations

import re
import struct
from dataclasses import dataclass
from typing import Optional

FORM = struct.Struct("<36s36s72s20s13H")
HEAD_SIZE = FORM.size
ATTRIBUTES_AT = 186
NAME = re.compile(r"([0-9]{1,9})\.msg", re.I)
PRIVATE, CRASH, SENT, IN_TRANSIT, LOCAL = 0x0001, 0x0002, 0x0008, 0x0020, 0x0100
FILES = 0x0810  # file attaches and requests
FIELDS = {"from": (0, 36), "to": (36, 36), "subject": (72, 72), "date": (144, 20)}
ID = re.compile(rb"(?:^|[\r\n])\x01MSGID: *([^\r\n]*)")


@dataclass
class Stored:
    """A stored message."""

    name: str
    content: bytes

    def numbers(self) -> tuple[int, ...]:
        """Node and node, cost, net and net, zones and points, each of addressee and sender."""
        return struct.unpack_from("<9H", self.content, 166)

    def attributes(self) -> int:
        """The attributes, as far as the file is a message."""
        if len(self.content) < HEAD_SIZE:
            return 0
        return int(struct.unpack_from("<H", self.content, ATTRIBUTES_AT)[0])

    def text(self) -> bytes:
        """The text, without the 00."""
        return self.content[HEAD_SIZE:].split(b"\0", 1)[0]

    def has_end(self) -> bool:
        """Whether the text is whole."""
        return b"\0" in self.content[HEAD_SIZE:]

    def field(self, name: str) -> bytes:
        """A name, the subject or the date, up to its 00. One without a 00 has all its bytes."""
        start, size = FIELDS[name]
        return self.content[start : start + size].split(b"\0")[0]

    def id(self) -> Optional[bytes]:
        """The id of its text."""
        found = ID.search(self.content[HEAD_SIZE:].replace(b"\0", b"\n"))
        return found[1].rstrip(b" ") if found else None

    def with_fields(self, fields: tuple[bytes, bytes, bytes], text: bytes) -> bytes:
        """The same message with another addressee, author, subject and text. A name that is too long keeps no 00, so that it
        is refused as such."""
        content = bytearray(self.content[:HEAD_SIZE])
        for name, field in zip(("to", "from", "subject"), fields):
            start, size = FIELDS[name]
            content[start : start + size] = field.ljust(size, b"\0")[:size]
        return bytes(content) + text + b"\0"
