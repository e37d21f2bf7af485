"""The file `areas`: which areas links may ask for, each with its group and a description. And the command `areas`."""
from __future__ import annotations

import re
from dataclasses import dataclass
from os.path import lexists

from .calls import call, program
from .faults import Status, Stopped
from .peers import BAD_BYTE, MOST_BYTES, TAG
from .station import Station

GROUP = re.compile("[A-Z]")
MOST_TEXT = 60
LINE = re.compile(r"([^ \t]+)(?:[ \t]+([^ \t]+))?[ \t]*(.*?)[ \t]*", re.S)
LISTED = re.compile(r"^area (\S+) messages ([0-9]+) ", re.M)


@dataclass(frozen=True)
class Area:
    """An area of the file."""

    tag: str
    group: str
    text: str = ""


def fault(number: int, what: str) -> Stopped:
    """The fault of a line."""
    return Stopped(Status.REFUSED, "areas:%d: %s" % (number, what))


def area_of(number: int, line: str) -> Area:
    """The area of a line."""
    found = LINE.fullmatch(line.lstrip(" \t"))
    tag, group, text = found.groups() if found else ("", "", "")
    if not (TAG.fullmatch(tag) and GROUP.fullmatch(group or "")):
        raise fault(number, "K2 BadWord")
    if len(text) > MOST_TEXT:
        raise fault(number, "K8 TextTooLong")
    return Area(tag.upper(), group, text)


def areas_in(content: bytes) -> dict[str, Area]:
    """The areas of a file, by their tags in capitals."""
    found: dict[str, Area] = {}
    for number, line in enumerate(content.split(b"\n"), 1):
        line = line[:-1] if line.endswith(b"\r") else line
        if not line.strip(b" \t") or line.startswith(b";"):
            continue
        if BAD_BYTE.search(line):
            raise fault(number, "K1 BadByte")
        area = area_of(number, line.decode("ascii"))
        if area.tag in found:
            raise fault(number, "K4 Repeated %s" % area.tag)
        found[area.tag] = area
    return found


def areas_of(station: Station) -> dict[str, Area]:
    """The areas of a station's file: none without it."""
    path = station.at("areas")
    if not lexists(path):
        return {}
    with open(path, "rb") as file:
        content = file.read(MOST_BYTES + 1)
    if len(content) > MOST_BYTES:
        raise Stopped(Status.REFUSED, "areas: over %d bytes" % MOST_BYTES)
    return areas_in(content)


def messages_of(station: Station) -> dict[str, int]:
    """How many messages the base has of each area."""
    if not lexists(station.at("base")):
        return {}
    ran = call(program(), "list", "--explain", "--areas", station.at("base"))
    if ran.status:
        raise ran.stopped()
    return {tag: int(count) for tag, count in LISTED.findall(ran.output)}


def areas(station: Station, _: list[str]) -> int:
    """The command `areas`."""
    station.load()
    listed, messages = areas_of(station), messages_of(station)
    for tag in sorted({*listed, *station.areas}):
        area = listed.get(tag, Area(tag, "-"))
        if tag in station.areas:
            middle = "links %d messages %d" % (len(station.areas[tag]), messages.get(tag, 0))
        else:
            middle = "no area"
        station.say(("%s %s %s %s" % (tag, area.group, middle, area.text)).rstrip())
    return Status.GOOD
