"""Tosses what the mailer received: takes it in, tosses it, and removes each packet or puts it aside.

A packet first goes to tossing/, under a number. The mailer keeps the name that a link gave it, and may bring another
packet of that name. A packet is removed only after it was tossed whole. Refused and unreadable ones go to bad/, each with
the reason in NAME.why, and the packets after it are tossed. If a disk fails, or the link file or the base is refused, the
packets stay for the next run."""
from __future__ import annotations

import contextlib
import os
import re
import sys
from os.path import basename, exists, join, lexists
from typing import TYPE_CHECKING, Optional

from fidonet.addresses import Address

from .aside import MOST_NAME, numbered
from .faults import Status, Stopped
from .left import report_left
from .printing import shown_path
from .running import status_of
from .station import Station, names_in

if TYPE_CHECKING:
    from .tosser import Told, Tossed

WORK = re.compile(r"(?!\.)(?:.*\.pkt|.*\.(?:mo|tu|we|th|fr|sa|su).)", re.I | re.S)
PACKET = re.compile(r"(?!\.).*\.pkt", re.I | re.S)
PLACE_IN_RUN = re.compile(r"^(echonet: note: packet) [0-9]+ of [0-9]+,", re.M)
ANSWER = re.compile(r"([0-9a-f]{8})\.pkt")


class Toss:
    """One run of a toss."""

    def __init__(self, station: Station) -> None:
        self.station = station
        self.disk = station.disk
        self.is_alone = False  # something went wrong, so lines have the names of packets
        self.answers = self.numbers_of_round()

    def run(self) -> int:
        """Takes in, reports what stays, and tosses. The status of the gate counts, if it failed."""
        gated = 0
        if is_peered(self.station):
            if has_gate_work(self.station):
                gated = self.pass_gate()
        else:
            self.take_in()
        report_left(self.station)
        status = self.toss_packets() or self.work_off_requests()
        return gated if gated > Status.HAND else status or self.station.ending(has_failed=False)

    def work_off_requests(self) -> int:
        """Works off the letters to AreaFix. Without any, nothing is imported."""
        if not names_in(self.station.at("areafix")):
            return Status.GOOD
        from .areafix import work_off_requests

        return status_of(lambda: work_off_requests(self.station))

    def pass_gate(self) -> int:
        """The gate takes files in. If it fails, the packets that it passed on before are tossed."""
        from .gate import pass_gate

        return status_of(lambda: pass_gate(self.station))

    def take_in(self) -> None:
        """Moves packets to numbers after those of an earlier run. The names that they came with are on the disk before the
        first one moves."""
        folder, moves = self.station.at("tossing"), []
        names = [name for name in names_in(self.station.inbound) if PACKET.fullmatch(name)]
        number = int(re.sub("[^0-9]", "", max(packets_in(folder), default="")) or 0)
        for name in names:
            number += 1
            while lexists(join(folder, "%08d.pkt" % number)):
                number += 1
            place = join(folder, "%08d" % number)
            self.disk.stage(place + ".name", os.fsencode(name))
            moves.append((join(self.station.inbound, name), place))
        for _, place in moves:
            self.disk.flush(place + ".name")
        if moves:
            self.disk.sync(folder)
        for path, place in moves:
            if lexists(path):
                self.disk.rename(path, place + ".pkt")

    def toss_packets(self) -> int:
        """Tosses all packets at once, since each toss opens the base once, and again those after a faulty one."""
        packets = [self.station.at("tossing", name) for name in packets_in(self.station.at("tossing"))]
        if not packets:
            self.end_round()
            return Status.GOOD
        self.begin_round()
        status = self.toss(packets)
        if not status:
            self.end_round()
        return status

    def toss(self, packets: list[str]) -> int:
        """Tosses packets until none is left, or the run has to end."""
        from .tosser import call_toss

        while packets:
            tossed = call_toss(self.station, packets)
            faulty = tossed.faulty(packets)
            if tossed.status == Status.GOOD and len(tossed.told) == len(packets):
                self.settle(packets, tossed.told)
                return Status.GOOD
            self.is_alone = True
            if faulty is not None:
                self.settle(packets[:faulty], tossed.told)
                self.put_faulty_aside(packets[faulty], tossed, faulty)
                packets = packets[faulty + 1 :]
            elif not tossed.lacked_memory():
                return self.fail(tossed)
            elif len(packets) > 1:
                self.note_stop(tossed)
                return self.toss_alone(packets)
            elif call_toss(self.station, []).status == Status.GOOD:
                self.note_stop(tossed)
                self.put_faulty_aside(packets[0], tossed, len(tossed.told))
                return Status.GOOD
            else:
                return self.fail(tossed)
        return Status.GOOD

    def toss_alone(self, packets: list[str]) -> int:
        """Tosses each packet by itself, after the program was killed or memory ran out."""
        for packet in packets:
            status = self.toss([packet])
            if status:
                return status
        return Status.GOOD

    def fail(self, tossed: Tossed) -> int:
        """Ends the run: the packets wait for the next one."""
        print(tossed.faults(), file=sys.stderr, flush=True)
        return tossed.status if tossed.status <= Status.COMMAND else Status.FAILED

    def settle(self, packets: list[str], told: list[Told]) -> None:
        """Removes the packets that were tossed whole, and puts the others aside."""
        self.is_alone = self.is_alone or not all(it.is_whole() for it in told[: len(packets)])
        if not self.is_alone:
            for it in told:
                self.station.say(it.counts)
        for packet, it in zip(packets, told):
            if it.is_whole():
                self.done_with(packet, it)
            else:
                sender = self.sender_of(packet)
                self.put_aside(packet, it, it.reason(sender), [it.counts, *it.refused])

    def put_faulty_aside(self, packet: str, tossed: Tossed, place: int) -> None:
        """Puts the packet aside whose fault ended a toss. Its messages before the fault were filed."""
        from .tosser import Told

        told = tossed.told[place] if place < len(tossed.told) else Told()
        fault = tossed.fault or "echonet: killed by signal %d" % (tossed.status - 128)
        note = PLACE_IN_RUN.sub(r"\1 1 of 1,", tossed.note)
        self.put_aside(packet, told, fault, [*filter(None, [note]), *told.refused])

    def sender_of(self, packet: str) -> Optional[Address]:
        """The sender in the header of a packet, by its address on the net."""
        from fidonet.packets import stated_sender

        sender = stated_sender(packet)
        return self.station.peers.real_of.get(sender, sender) if sender else None

    def done_with(self, packet: str, told: Told) -> None:
        """Notes a packet that was tossed whole, and removes it."""
        came = self.name_of(packet)
        sender = self.sender_of(packet)
        if self.is_alone:
            self.station.say("%s: %s" % (shown_path(came), told.counts))
        self.note_answer(came, "came", told)
        self.station.log("came %s from %s %s" % (shown_path(came), sender or "-", told.counts))
        self.log_known(sender, told)
        self.disk.unlink(packet)
        self.disk.unlink(packet[: -len(".pkt")] + ".name")

    def put_aside(self, packet: str, told: Told, reason: str, more: list[str]) -> None:
        """Puts a packet aside, under a free name with the same ending. The reason is on the disk before it moves."""
        came, folder = self.name_of(packet), self.station.at("bad")
        sender = self.sender_of(packet)
        if len(os.fsencode(came)) > MOST_NAME:
            came = basename(packet)
        name = next(name for name in numbered(came) if not lexists(join(folder, name)))
        self.disk.write(join(folder, name + ".why"), (os.fsencode(line + "\n") for line in (reason, *more)))
        self.disk.sync(folder)
        self.note_answer(came, "aside", told)
        print("put aside %s: %s" % (shown_path(name), reason), file=sys.stderr, flush=True)
        self.station.log("aside %s from %s %s: %s" % (shown_path(name), sender or "-", told.counts, reason))
        self.log_known(sender, told)
        self.disk.rename(packet, join(folder, name))
        self.disk.sync(folder)
        self.disk.unlink(packet[: -len(".pkt")] + ".name")
        self.station.has_put_aside = True

    def log_known(self, sender: Optional[Address], told: Told) -> None:
        """A line for each area of which messages were known."""
        for tag, count in sorted(told.known.items()):
            self.station.log("known %d %s from %s" % (count, tag, sender or "-"))

    def name_of(self, packet: str) -> str:
        """The name that a packet came with, or its number if that name is lost or damaged."""
        try:
            with open(packet[: -len(".pkt")] + ".name", "rb") as file:
                came = os.fsdecode(file.read())
        except OSError:
            came = ""
        return came if "/" not in came and came.lower().endswith(".pkt") else basename(packet)

    # A repair counts what the packets of its answers filed. After a stopped toss the counts may be too small.

    def numbers_of_round(self) -> set[str]:
        """The numbers of the questions of an open repair."""
        path = self.station.at("repair", "round")
        if not exists(path):
            return set()
        with open(path, "rb") as file:
            return {os.fsdecode(line.split(b" ")[0]) for line in file}

    def begin_round(self) -> None:
        """Notes that a toss began, and whether an earlier one was stopped."""
        if exists(self.station.at("repair", "round")):
            if exists(self.station.at("repair", "tossing")):
                self.mark_round("unsure")
            self.mark_round("tossing")

    def mark_round(self, name: str) -> None:
        """Makes a mark of the open repair."""
        self.disk.write(self.station.at("repair", name), b"")
        self.disk.sync(self.station.at("repair"))

    def end_round(self) -> None:
        """The toss was not stopped."""
        self.disk.unlink(self.station.at("repair", "tossing"))

    def note_stop(self, tossed: Tossed) -> None:
        """A program that was killed may have filed what no line says."""
        if tossed.status > Status.COMMAND and exists(self.station.at("repair", "round")):
            self.mark_round("unsure")

    def note_answer(self, came: str, ending: str, told: Told) -> None:
        """Notes the counts of a packet that a repair waits for."""
        found = ANSWER.fullmatch(came)
        if found and found[1] in self.answers:
            path = self.station.at("repair", "%s.%s" % (found[1], ending))
            self.disk.append(path, told.counts.encode() + b"\n")
            self.disk.sync(self.station.at("repair"))


def packets_in(folder: str) -> list[str]:
    """The packets of tossing/, in order."""
    return [name for name in names_in(folder) if name.endswith(".pkt") and not name.startswith(".")]


def is_peered(station: Station) -> bool:
    """Whether the gate takes files in: there is a file `peers`, or received files that an earlier run left."""
    return lexists(station.at("peers")) or any(name.endswith(".in") for name in names_in(station.at("gate")))


def has_gate_work(station: Station) -> bool:
    """Whether there are received files, or files that a stopped run left. Most runs bring nothing."""
    return any(map(WORK.fullmatch, names_in(station.inbound))) or bool(names_in(station.at("gate")))


def remove_reasons(station: Station) -> None:
    """Removes the reasons without packets."""
    folder = station.at("bad")
    for name in names_in(folder):
        if name.endswith(".why") and not lexists(join(folder, name[: -len(".why")])):
            station.disk.unlink(join(folder, name))


def toss(station: Station, _: list[str]) -> int:
    """The command `toss`."""
    station.is_run = True
    for folder in (station.inbound, station.at("tossing"), station.at("bad")):
        station.disk.make_folder(folder)
    station.lock("toss.lock")
    try:
        remove_reasons(station)
        with contextlib.suppress(Stopped, OSError):  # the gate says what is wrong with it
            station.load_peers()
        return Toss(station).run()
    finally:
        station.unlock()
