"""Adds an area that a link sends: one word for the sysop."""
from __future__ import annotations

from fidonet.addresses import Address, address_of

from .bad_files import NewArea, bad_files, new_areas, tags_in
from .faults import Status, Stopped
from .link_file import LinkFile
from .printing import shown_path
from .retoss import retoss
from .station import Station


def sender_for(tag: str, found: list[NewArea], words: list[str]) -> Address:
    """The one link that sends an area. A stranger has to be named."""
    named = [address_of(word) for word in words]
    if None in named:
        raise Stopped(Status.COMMAND, "no address %s" % words[0])
    areas = [area for area in found if area.tag == tag]
    if named:
        senders = [area.sender for area in areas if area.sender in named]
    else:
        senders = [area.sender for area in areas if not area.is_stranger]
    if not senders:
        raise Stopped(Status.REFUSED, "no link sends %s (a stranger has to be named: accept TAG ADDRESS)" % shown_path(tag))
    if len(senders) > 1:
        names = " ".join(map(str, senders))
        raise Stopped(Status.REFUSED, "%s comes from %s: name one, or add the line by hand" % (shown_path(tag), names))
    return senders[0]


def add_area(station: Station, tag: str, sender: Address) -> None:
    """Adds the line to the link file, if `echonet links` accepts the result."""
    with LinkFile(station) as file:
        text = file.text if not file.text or file.text.endswith(b"\n") else file.text + b"\n"
        file.install(text + b"AREA %s %s\n" % (tag.encode("ascii"), str(sender).encode()))


def accept(station: Station, words: list[str]) -> int:
    """The command `accept`."""
    station.load()
    found = new_areas(station)
    if not words:
        for area in found:
            station.say(str(area))
        return Status.GOOD
    tag = words[0].upper()
    sender = sender_for(tag, found, words[1:])
    add_area(station, tag, sender)
    station.note("accepted AREA %s %s" % (tag, station.peers.net_address(sender)))
    return retoss(station, [name for name in bad_files(station) if tag in tags_in(station, name)])
