"""The lines of the file `peers`: adds and removes some, and leaves all other bytes as they are."""
from __future__ import annotations

from typing import Optional

from fidonet.addresses import Address, address_of

from .link_lines import GAP_AND_WORD, words_of
from .peers import Reader
from .station import Station
from .whole_files import content_of, replace

OF_LINKS = (b"PEER", b"POINT")


def with_line(text: bytes, line: str) -> bytes:
    """The file with a line at its end."""
    end = b"" if not text or text.endswith(b"\n") else b"\n"
    return text + end + line.encode("ascii") + b"\n"


def is_of(line: bytes, addresses: set[Address]) -> bool:
    """Whether a line is the one of a link."""
    words = words_of(line)
    return len(words) > 1 and words[0] in OF_LINKS and address_of(words[1].decode("latin-1")) in addresses


def without_address(line: bytes, addresses: set[Address]) -> Optional[bytes]:
    """A READONLY line without some addresses: nothing, if none is left."""
    words = words_of(line)
    if words[:1] != [b"READONLY"]:
        return line
    places = list(GAP_AND_WORD.finditer(line))[2:]
    gone = [place for place in places if address_of(place[1].decode("latin-1"), may_be_point=True) in addresses]
    for place in reversed(gone):
        line = line[: place.start()] + line[place.end() :]
    return line if len(gone) < len(places) else None


def without_link(text: bytes, addresses: set[Address]) -> bytes:
    """The file without the line of a link, and without it in READONLY lines."""
    lines = (line if line.lstrip(b" \t").startswith(b";") else without_address(line, addresses) for line in text.split(b"\n"))
    return b"\n".join(line for line in lines if line is not None and not is_of(line, addresses))


def change_peers(station: Station, text: bytes) -> None:
    """Replaces the file, if it has no fault, and reads it."""
    path = station.at("peers")
    if text != content_of(path):
        peers = Reader().read(text)
        replace(station.disk, path, text)
        station.peers = peers


def read_only_too(station: Station, link: Address, tags: list[str]) -> None:
    """Adds READONLY lines, before the link has the areas: what stops this leaves no link that may post."""
    new = [tag for tag in dict.fromkeys(tags) if tag in station.areas and not station.peers.is_read_only(tag, link)]
    text = content_of(station.at("peers"))
    for tag in new:
        text = with_line(text, "READONLY %s %s" % (tag, station.peers.net_address(link)))
    change_peers(station, text)
