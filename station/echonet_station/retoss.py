"""Tries again what lies in bad/."""
from __future__ import annotations

import os

from .bad_files import bad_files, passed_gate
from .faults import Status, Stopped
from .inbound import next_free
from .passing import Passing
from .printing import shown_path
from .running import status_of_command
from .station import Station
from .toss import toss


def to_toss(station: Station, name: str, passing: Passing) -> None:
    """Gives a packet straight to toss. Its password was taken off when it passed the gate."""
    disk, number = station.disk, passing.next_number()
    disk.write(station.at("tossing", number + ".name"), os.fsencode(name))
    disk.sync(station.at("tossing"))
    disk.rename(station.at("bad", name), station.at("tossing", number + ".pkt"))
    disk.sync(station.at("tossing"))


def to_gate(station: Station, name: str) -> None:
    """Gives a file to the gate, which judges it anew."""
    disk, number = station.disk, next_free(station.at("gate"), 0)
    place = station.at("gate", "%08d" % number)
    disk.write(place + ".name", os.fsencode(name))
    disk.sync(station.at("gate"))
    disk.rename(station.at("bad", name), place + ".in")
    disk.sync(station.at("gate"))


def move_back(station: Station, names: list[str]) -> None:
    """Moves files out of bad/. A reason goes after its file."""
    for folder in ("gate", "tossing", "bad"):
        station.disk.make_folder(station.at(folder))
    passing = Passing(station)
    for name in names:
        if passed_gate(station, name):
            to_toss(station, name, passing)
        else:
            to_gate(station, name)
        station.disk.sync(station.at("bad"))
        station.disk.unlink(station.at("bad", name + ".why"))


def retoss(station: Station, words: list[str]) -> int:
    """The command `retoss`."""
    station.lock("toss.lock")
    station.load()
    names = bad_files(station)
    for word in words:
        if word not in names:
            raise Stopped(Status.COMMAND, "no file %s in bad" % shown_path(word))
    chosen = [name for name in names if not words or name in words]
    move_back(station, chosen)
    station.unlock()
    station.say("retoss %d files" % len(chosen))
    return status_of_command(toss, station)
