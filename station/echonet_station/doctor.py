"""Looks at the settings of a station, and says what to do."""
from __future__ import annotations

import os
import shutil
from os.path import exists
from typing import Iterator

from fidonet.addresses import Address

from .calls import program
from .faults import Status, Stopped
from .link_file import refusal
from .mailer import Finding, configuration, look_at_mailer
from .printing import shown_path
from .read_only_links import look_at_read_only
from .station import Station
from .unpacking import PROGRAMS

OTHERS_MAY = 0o077


def look_at_links(station: Station) -> Iterator[Finding]:
    """The link file, and the lines of `peers` for its links."""
    path = station.at("links")
    fault = refusal(path, path)
    yield Finding("link file", fault is None, str(fault))
    try:
        station.load()
    except Stopped as fault:
        yield Finding("peers", False, str(fault))
        return
    if not exists(station.at("peers")):
        yield Finding("peers", False, "no such file: bundles, netmail and passwords are not looked at. An empty one is enough")
        return
    yield Finding("peers", True)
    is_closed = not os.stat(station.at("peers")).st_mode & OTHERS_MAY
    yield Finding("peers is closed to others", is_closed, "chmod 600 peers")
    yield from look_at_passwords(station)


def look_at_passwords(station: Station) -> Iterator[Finding]:
    """Whether each link has a line with a password. The check of packets by binkd does not see into bundles."""
    links, peers = station.links(), station.peers
    for link in sorted(links - set(peers.peers)):
        yield Finding("link %s has a PEER line" % link, False, "any link can send in its name: check-pkthdr does not see into bundles")
    for link in sorted(links & set(peers.peers)):
        advice = "any link can send in its name: check-pkthdr does not see into bundles"
        yield Finding("link %s has a packet password" % link, bool(peers.peer(link).password), advice)
    for address in sorted(set(peers.peers) - links):
        is_known = address in (station.own, peers.route) or address in peers.real_of or not station.areas
        is_known = is_known or may_ask(station, address)
        yield Finding("peer %s is a link" % address, is_known, "no AREA line names it")


def may_ask(station: Station, address: Address) -> bool:
    """Whether a system without areas may have some later: it asks for them, only has letters, or is paused."""
    peer = station.peers.peer(address)
    return bool(peer.areafix) or peer.passes or (exists(station.at("paused")) and is_paused(station, address))


def is_paused(station: Station, address: Address) -> bool:
    """Whether a link is paused."""
    from .pausing import Pauses

    return bool(Pauses(station).tags(address))


def look_at_folders(station: Station) -> Iterator[Finding]:
    """Whether the folders are on one file system that has hard links."""
    folders = (station.folder, station.inbound, station.outbound, station.packets)
    devices = {os.stat(folder).st_dev for folder in folders if exists(folder)}
    yield Finding("one file system", len(devices) == 1, "INBOUND, OUTBOUND, PACKETS and the station have to be on one")
    yield Finding("hard links", has_hard_links(station), "base, packets and gate need them")


def has_hard_links(station: Station) -> bool:
    """Tries a hard link in the station's folder."""
    probe = station.at("doctor.probe")
    try:
        station.disk.stage(probe, b"")
        station.disk.link(probe, probe + ".2")
        return True
    except OSError:
        return False
    finally:
        for path in (probe, probe + ".2"):
            station.disk.unlink(path)


def look_at_tools() -> Iterator[Finding]:
    """Whether the programs are there that a station calls."""
    yield Finding("echonet", shutil.which(program()) is not None, "it is not on the PATH; or set ECHONET")
    if not any(map(shutil.which, PROGRAMS)):
        yield Finding("7z", True, "bundles of arj, lzh and 7z go to bad/", is_note=True)


def doctor(station: Station, words: list[str]) -> int:
    """The command `doctor`."""
    has_bad = False

    def show(findings: Iterator[Finding]) -> None:
        nonlocal has_bad
        for finding in findings:
            has_bad = has_bad or not finding.is_good
            mark = "note" if finding.is_note else "good" if finding.is_good else "BAD "
            print("%s %s%s" % (mark, finding.what, "" if mark == "good" else ": " + finding.advice), flush=True)

    show(look_at_links(station))
    if not hasattr(station, "own"):
        return Status.HAND
    show(look_at_read_only(station))
    show(look_at_folders(station))
    show(look_at_tools())
    path = configuration(station, words)
    if path is None:
        print("no binkd configuration looked at: doctor PATH")
    else:
        print("looks at %s" % shown_path(path))
        show(look_at_mailer(station, path))
    return Status.HAND if has_bad else Status.GOOD
