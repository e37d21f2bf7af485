"""The lines of a link file, byte for byte: adds and removes links, and leaves all other bytes as they are."""
from __future__ import annotations

import re
from typing import Optional

from fidonet.addresses import Address, address_of

WORD = re.compile(rb"[^ \t\r]+")
GAP_AND_WORD = re.compile(rb"[ \t]*([^ \t\r]+)")
BLANKS = b" \t\r"


def words_of(line: bytes) -> list[bytes]:
    """The words of a line."""
    return WORD.findall(line)


def tag_of(line: bytes) -> Optional[bytes]:
    """The tag of an AREA line in capitals."""
    words = line.split(None, 2)
    return words[1].upper() if len(words) > 1 and words[0] == b"AREA" else None


def address_in(word: bytes) -> Optional[Address]:
    """The address that a word is."""
    return address_of(word.decode("latin-1"))


def owner_of(text: bytes) -> Optional[Address]:
    """The system of a link file."""
    for line in text.split(b"\n"):
        words = words_of(line) if line.lstrip(BLANKS).startswith(b"SYSTEM") else []
        if len(words) == 2 and words[0] == b"SYSTEM":
            return address_in(words[1])
    return None


def links_in(text: bytes, tag: bytes) -> Optional[list[Address]]:
    """The links of an area: nothing, if the file does not have it."""
    for line in text.split(b"\n"):
        if tag_of(line) == tag:
            return [it for it in map(address_in, words_of(line)[2:]) if it]
    return None


def reduced(text: bytes, tags: set[bytes]) -> bytes:
    """The same file with the lines of its system and of these areas alone."""
    lines = text.split(b"\n")
    return b"\n".join(line for line in lines if tag_of(line) in tags or line.lstrip(BLANKS).startswith(b"SYSTEM")) + b"\n"


def with_link(text: bytes, tag: bytes, link: Address) -> bytes:
    """The file with a link at the end of the area's line, after a blank."""
    lines = text.split(b"\n")
    for number, line in enumerate(lines):
        if tag_of(line) == tag:
            end = len(line) - line.endswith(b"\r")
            lines[number] = line[:end] + b" " + str(link).encode() + line[end:]
            break
    return b"\n".join(lines)


def without_link(text: bytes, tag: bytes, link: Address) -> bytes:
    """The file without a link in the area's line, and without the blanks before it."""
    lines = text.split(b"\n")
    for number, line in enumerate(lines):
        if tag_of(line) == tag:
            places = list(GAP_AND_WORD.finditer(line))[2:]
            for place in reversed([it for it in places if address_in(it[1]) == link]):
                line = line[: place.start()] + line[place.end() :]
            lines[number] = line
            break
    return b"\n".join(lines)


def with_area(text: bytes, tag: bytes, link: Address) -> bytes:
    """The file as if its system listed a link in an area."""
    links = links_in(text, tag)
    if links is None:
        return text + (b"" if text.endswith(b"\n") else b"\n") + b"AREA %s %s\n" % (tag, str(link).encode())
    return text if link in links else with_link(text, tag, link)
