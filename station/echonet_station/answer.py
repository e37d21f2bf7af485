"""Answers lists of ids that links sent: with what they lack, and with the own list."""
from __future__ import annotations

import os
import stat
import sys
from os.path import join

from fidonet.addresses import Address

from .faults import Status
from .lists import (
    ListName,
    Refused,
    area_of,
    clear,
    ids_in,
    list_name,
    make_packet,
    name_to,
    own_list,
    send_list,
    send_packet,
    word_of,
)
from .printing import shown_path
from .rounds import Pair, Round
from .station import Station, names_in


def link_of(station: Station, name: ListName) -> Address:
    """The sender of a list, as the link file names it."""
    return station.peers.fake_of.get(name.sender, name.sender)


def area_in(station: Station, path: str, link: Address) -> str:
    """The area of a list, as the link file has it. The link has to be one of this area."""
    shown = area_of(path)
    for tag, links in station.areas.items():
        if shown_path(word_of(tag)) == shown and link in links:
            return tag
    raise Refused("not linked %s" % station.peers.net_address(link))


def answer_question(station: Station, path: str, name: ListName) -> None:
    """A link asks: it is sent what it lacks, and the own list."""
    link = link_of(station, name)
    tag = area_in(station, path, link)
    messages = make_packet(station, link, tag, path)
    send_packet(station, link, "as-%s.pkt" % name.number)
    send_list(station, link, name_to(station, link, name.number, messages), own_list(station, tag))
    station.disk.unlink(path)
    station.note("answered %s %s: %d messages" % (station.peers.net_address(link), tag, messages))


def use_answer(station: Station, path: str, name: ListName) -> None:
    """A link answers: it is sent what its list lacks. One answer to each question counts."""
    link = link_of(station, name)
    found = [pair for pair in Round(station).pairs if pair.number == name.number and pair.link == link]
    if not found or found[0].answer is not None:
        station.log("%s from %s: no open question" % (name, station.peers.net_address(link)))
    elif area_in(station, path, link) != found[0].tag:
        raise Refused("another area")
    else:
        use_list(station, path, found[0], name.messages or 0)
    station.disk.unlink(path)


def use_list(station: Station, path: str, pair: Pair, messages: int) -> None:
    """Sends what a list lacks, and notes the answer."""
    sent = make_packet(station, pair.link, pair.tag, path)
    send_packet(station, pair.link, pair.packet)
    pair.note_answer(messages, sent, lacking(station, path, pair, sent))
    station.note("list of %s: sent %d messages" % (pair.name, sent))


def lacking(station: Station, path: str, pair: Pair, sent: int) -> int:
    """How many of the sent messages were here when the round began, and are not in the list. Messages without an id are
    sent at any time, so they do not count."""
    with open(path, "rb") as file:
        most = len(pair.ids() - ids_in(file.read()))
    if not (most and sent):
        return 0
    own = pair.path("own")
    station.disk.write(own, own_list(station, pair.tag))
    always = make_packet(station, pair.link, pair.tag, own)
    clear(station)
    return min(most, max(0, sent - always))


def answer_one(station: Station, path: str, name: ListName) -> None:
    """Answers one list. One that cannot be used is removed, since its sender can ask again."""
    try:
        if name.messages is None:
            answer_question(station, path, name)
        else:
            use_answer(station, path, name)
    except Refused as fault:
        line = "refuses %s: %s" % (name, fault)
        station.disk.unlink(path)
        station.log(line)
        print(line, file=sys.stderr, flush=True)
        station.has_put_aside = True


def answer(station: Station, _: list[str]) -> Status:
    """The command `answer`."""
    station.lock("scan.lock")
    return answer_lists(station)


def answer_lists(station: Station) -> Status:
    """Answers the lists that came. The caller has the lock."""
    station.load()
    for file in names_in(station.inbound):
        name = list_name(file)
        is_file = stat.S_ISREG(os.lstat(join(station.inbound, file)).st_mode)
        if name and is_file and station.is_own(name.receiver):
            answer_one(station, join(station.inbound, file), name)
    return station.ending(has_failed=False)
