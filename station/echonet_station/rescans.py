"""Sends links messages again: the last ones of an area, or those from a number on. The caller has the lock of scans."""
from __future__ import annotations

import re
import time

from fidonet.addresses import Address

from .calls import call, program
from .counts import NO_MESSAGE
from .lists import clear, fault_of, has_base, send_packet, word_of
from .station import Station

PACKET_LINE = re.compile(r"packet \S+ ([0-9]+) messages ")
END = re.compile(r"^end ([0-9]+) messages, ([0-9]+) waiting", re.M)
PURGED = " purged"


def listing(station: Station, *words: str) -> str:
    """What `echonet list` prints of the base."""
    ran = call(program(), "list", *words, station.at("base"))
    if ran.status:
        raise fault_of(ran)
    return ran.output


def scanned_of(station: Station) -> int:
    """How many messages were scanned."""
    found = END.search(listing(station, "--from", NO_MESSAGE)) if has_base(station) else None
    return int(found[1]) - int(found[2]) if found else 0


def first_of_last(station: Station, tag: str, count: int) -> int:
    """The number of the message with which the last ones of an area begin. Purged ones do not count."""
    lines = listing(station, "--short", "--area", word_of(tag)).split("\n")[:-2]
    numbers = [int(line.split(" ", 1)[0]) for line in lines if not line.endswith(" | purged")]
    return numbers[-count] if 0 < count <= len(numbers) else (0 if count else int(NO_MESSAGE))


def purged_from(station: Station, link: Address, tag: str, first: int) -> int:
    """How many messages of an area from a number on, and not of the link, have no text any more."""
    if not has_base(station):
        return 0
    lines = listing(station, "--area", word_of(tag), "--from", str(first)).split("\n")
    heads = [line for line in lines if line.startswith("message ") and line.endswith(PURGED)]
    return sum(" from %s " % link not in line for line in heads)


def send_from(station: Station, link: Address, tag: str, first: int, name: str, takes_all: bool) -> int:
    """Gives the scan a packet of this name with the messages of an area from a number on: those that went to the link, or
    all. Returns how many it has."""
    clear(station)
    if not has_base(station):
        return 0
    words = ["--all"] if takes_all else []
    places = (station.at("links"), station.at("base"), station.at("answers"))
    ran = call(program(), "resend", *words, "--area", word_of(tag), "--to", str(link), "--from", str(first), "--at", "now", *places)
    if ran.status:
        raise fault_of(ran)
    found = PACKET_LINE.match(ran.output)
    if found:
        send_packet(station, link, name)
    return int(found[1]) if found else 0


def rescan(station: Station, link: Address, tag: str, count: int) -> int:
    """Sends a link the last messages of an area. Returns how many."""
    if count <= 0 or not has_base(station):
        return 0
    first = first_of_last(station, tag, count)
    return send_from(station, link, tag, first, "s%d.pkt" % (time.time_ns() // 1000), takes_all=True)
