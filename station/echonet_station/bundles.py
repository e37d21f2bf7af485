"""Bundles: archives of packets. They are unpacked by a process with limits, and no name in one is used."""
from __future__ import annotations

import os
import re
import struct
import sys
from dataclasses import dataclass, field
from enum import Enum
from typing import IO, Optional

MOST_MEMBERS = 1000
MOST_INDEX = 1 << 20
MOST_MEMBER = 64 << 20
MOST_TOTAL = 256 << 20
BUNDLE_NAME = re.compile(r"\.(mo|tu|we|th|fr|sa|su)[0-9a-z]$", re.I)
NO_END = "damaged: no end record"
TOO_MANY = "more than %d members" % MOST_MEMBERS
TOO_LARGE = "too large unpacked"
END_SIZE = 22
END_MARK = b"PK\5\6"
LONGEST_COMMENT = 65535


class Kind(Enum):
    """The archivers, by what their files begin with."""

    ZIP = "zip"
    RAR = "rar"
    SEVEN = "7z"
    ARJ = "arj"
    LZH = "lzh"
    ARC = "arc"
    ZOO = "zoo"


MARKS = (
    (b"PK\3\4", Kind.ZIP),
    (END_MARK, Kind.ZIP),
    (b"PK00PK\3\4", Kind.ZIP),
    (b"Rar!", Kind.RAR),
    (b"7z\xbc\xaf\x27\x1c", Kind.SEVEN),
    (b"\x60\xea", Kind.ARJ),
    (b"ZOO ", Kind.ZOO),
)


@dataclass
class Unpacked:
    """What became of a bundle: a fault of the whole, or of each member (nothing if it is good)."""

    fault: Optional[str] = None
    members: list[Optional[str]] = field(default_factory=list)
    failed: Optional[str] = None  # a device, not the bundle


def kind_of(begin: bytes) -> Optional[Kind]:
    """The archiver of a file, by its first bytes."""
    for mark, kind in MARKS:
        if begin.startswith(mark):
            return kind
    if begin[2:5] in (b"-lh", b"-lz") and begin[6:7] == b"-":
        return Kind.LZH
    if begin[:1] == b"\x1a" and 1 <= ord(begin[1:2] or b"\0") <= 20:
        return Kind.ARC
    return None


def fault_of_zip(file: IO[bytes], size: int) -> Optional[str]:
    """Why a zip is not opened, by the record at its end. The module zipfile uses the same record."""
    file.seek(max(0, size - LONGEST_COMMENT - END_SIZE))
    tail = file.read()
    place = len(tail) - END_SIZE
    if place < 0 or tail[place : place + 4] != END_MARK or tail[-2:] != b"\0\0":
        place = tail.rfind(END_MARK)
    if place < 0 or len(tail) - place < END_SIZE:
        return NO_END
    if b"PK\6\7" in tail[max(0, place - 20) : place]:
        return "zip64"
    members, index = struct.unpack_from("<HL", tail, place + 10)
    if members > MOST_MEMBERS or index > MOST_INDEX:
        return TOO_MANY
    return None


def unpack(path: str, folder: str) -> Unpacked:
    """Unpacks a bundle into FOLDER/1, FOLDER/2 and so on, by a process of its own."""
    import json

    from .unpacking import run_child

    sys.stdout.flush()
    sys.stderr.flush()
    reading, writing = os.pipe()
    child = os.fork()
    if child == 0:
        os.close(reading)
        run_child(path, folder, writing)
    os.close(writing)
    with os.fdopen(reading, "rb") as pipe:
        told = pipe.read()
    _, ended = os.waitpid(child, 0)
    status = -os.WTERMSIG(ended) if os.WIFSIGNALED(ended) else os.WEXITSTATUS(ended)
    if status:
        return Unpacked(fault="cannot be unpacked (status %d)" % status)
    return Unpacked(**json.loads(told))
