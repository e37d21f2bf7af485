"""The gate: takes received files in, opens bundles, files letters, and passes packets on to toss."""
from __future__ import annotations

import os
import re
import stat
import sys
from os.path import getsize, join, lexists
from typing import Optional

from .aside import put_aside
from .bundles import BUNDLE_NAME, kind_of, unpack
from .faults import Status
from .filing import Filing
from .inbound import give_back, is_young, take_in
from .judging import Judge, Verdict, Way, output_of, packet_of
from .letter_ways import aside_name
from fidonet.messages import Message
from fidonet.packets import LEAST_SIZE, PACKET_TYPE, TYPE_2, Packet

from .passing import Output, Passing, Received
from .printing import shown_path
from .requests import keep_request
from .station import Station, names_in

RECEIVED = re.compile(r"([0-9]{8})\.in")
LEFT_OVER = (".name", ".letter")
MOST_NAME = 200  # bytes
MOST_STEM = 180
MOST_CAUSES = 20


class Gate:
    """One run of the gate."""

    def __init__(self, station: Station) -> None:
        self.station = station
        self.disk = station.disk
        for name in ("gate", "tossing", "bad"):
            self.disk.make_folder(station.at(name))
        self.disk.make_folder(station.inbound)
        self.judge = Judge(station)
        self.filing = Filing(station)
        self.members = station.at("gate", "members")

    def run(self) -> Status:
        """Takes in, treats all files, and tidies up."""
        clean_up(self.station)
        has_failed = not self.take_in()
        self.passing = Passing(self.station)
        for found in map(RECEIVED.fullmatch, names_in(self.station.at("gate"))):
            if found:
                self.treat(found[1])
        self.passing.finish()
        self.disk.remove_folder(self.members)
        self.disk.sync(self.station.at("gate"))
        clean_up(self.station)
        return self.station.ending(has_failed or self.passing.has_failed)

    def take_in(self) -> bool:
        """Takes files in. If that fails, those that were taken in are treated."""
        try:
            take_in(self.station)
        except OSError as fault:
            print("echonet-station: %s: %s" % (self.station.inbound, fault.strerror), file=sys.stderr, flush=True)
            return False
        return True

    def treat(self, number: str) -> None:
        """Treats a received file. If its device fails it stays, and those after it go on."""
        path = self.station.at("gate", number + ".in")
        received = Received(number, path, self.name_of(number))
        try:
            self.treat_file(received)
            size = os.lstat(path).st_size
        except (OSError, MemoryError) as fault:
            self.passing.fail(received, fault)
            return
        if not received.must_wait:
            self.passing.add(received, size)

    def name_of(self, number: str) -> str:
        """The name that a file came with, or its number if that is lost or too long."""
        try:
            with open(self.station.at("gate", number + ".name"), "rb") as file:
                name = os.fsdecode(file.read(MOST_NAME + 1))
        except OSError:
            name = ""
        is_good = name and "/" not in name and name not in (".", "..") and len(os.fsencode(name)) <= MOST_NAME
        return name if is_good else number + ".pkt"

    def treat_file(self, received: Received) -> None:
        """Treats a received file by its content."""
        if not stat.S_ISREG(os.lstat(received.path).st_mode):
            received.why = "no regular file"
            return
        with open(received.path, "rb") as file:
            begin = file.read(PACKET_TYPE.stop)
        is_bundle_name = BUNDLE_NAME.search(received.came) is not None
        if kind_of(begin):
            self.open_bundle(received)
        elif is_bundle_name and not begin:
            self.station.log("empty %s" % shown_path(received.came))  # mailers cut bundles that they sent
        elif is_bundle_name and begin[PACKET_TYPE] != TYPE_2:
            received.why = "unknown bundle"
        else:
            self.treat_packet(received)

    def treat_packet(self, received: Received) -> None:
        """Treats a received packet. One that needs more memory than there is goes aside."""
        try:
            with Packet(received.path) as packet:
                verdict = self.judge.judge(packet, is_member=False)
                received.sender = verdict.sender
                if verdict.way is Way.ASIDE:
                    received.why = verdict.why
                    return
                self.pass_on(received, packet, verdict, received.came, received.number)
                if verdict.damages:
                    received.why = damage_line(verdict)
        except MemoryError:
            for output in received.outputs:
                self.disk.unlink(output.path)
            received.outputs, received.why = [], "too large for memory"

    def pass_on(self, received: Received, packet: Packet, verdict: Verdict, came: str, key: str) -> None:
        """Files the letters of a packet, and makes the packet for toss."""
        for message, route in verdict.letters:
            self.filing.file(self.station.at("gate", "%s.%d.letter" % (key, message.place)), packet, message, route)
        for message, route in verdict.requests:
            keep_request(self.station, packet, message, route, verdict.sender)
        if verdict.foreign:
            self.put_foreign(packet, verdict, came)
        if verdict.read_only:
            self.put_read_only(packet, verdict, came)
        for cut in verdict.cuts:
            self.station.log("cut %s from %s %s" % (shown_path(came), verdict.sender, cut))
        if verdict.has_output():
            self.make_output(received, packet, verdict, came)

    def put_foreign(self, packet: Packet, verdict: Verdict, came: str) -> None:
        """Puts the letters that are not for this system aside, as a packet of their own."""
        first = "%d letters, the first for %s" % (len(verdict.foreign), verdict.foreign[0][1].to)
        messages = [message for message, _ in verdict.foreign]
        self.put_messages(packet, messages, verdict, aside_name(came), "; ".join([first, *verdict.advice[:MOST_CAUSES]]))

    def put_read_only(self, packet: Packet, verdict: Verdict, came: str) -> None:
        """Puts the messages aside that a read-only link sent."""
        counts = sorted(verdict.read_only_tags.items())
        parts = ["%d messages of readonly %s from %s" % (count, tag, verdict.sender) for tag, count in counts]
        self.put_messages(packet, verdict.read_only, verdict, aside_name(came, "readonly"), "; ".join(parts[:MOST_CAUSES]))

    def put_messages(self, packet: Packet, messages: list[Message], verdict: Verdict, name: str, why: str) -> None:
        """Puts some messages aside, as a packet of their own."""
        path = self.station.at("gate", "letters.new")
        self.disk.write(path, packet_of(packet, messages))
        put_aside(self.station, path, name, why, verdict.sender)

    def make_output(self, received: Received, packet: Packet, verdict: Verdict, came: str) -> None:
        """Makes the packet for toss. One that needs no change is moved. A member of a bundle is a copy already."""
        number = self.passing.next_number()
        is_moved = verdict.is_whole() and verdict.header == packet.header()
        if is_moved and packet.path == received.path:
            received.outputs.append(Output(came, packet.path, number))
            return
        staged = self.passing.staged(number)
        received.outputs.append(Output(came, staged, number))
        if verdict.is_whole() and packet.path != received.path:
            if not is_moved:
                self.disk.put(packet.path, 0, verdict.header)
            self.disk.rename(packet.path, staged)
        else:
            self.disk.stage(staged, output_of(packet, verdict))

    def open_bundle(self, received: Received) -> None:
        """Treats each packet of a bundle. The bundle goes to bad/ if a member did not go on."""
        self.disk.remove_folder(self.members)
        os.mkdir(self.members)
        result = unpack(received.path, self.members)
        if result.failed:
            raise OSError("members: " + result.failed)
        faults = [result.fault] if result.fault else []
        if result.fault and result.fault.startswith("damaged") and is_young(received.path):
            self.station.say("waits %s: %s" % (shown_path(received.came), result.fault))
            received.must_wait = True
            return
        for number, member_fault in enumerate(result.members, 1):
            fault = member_fault or self.treat_member(received, number)
            if fault:
                faults.append("member %d: %s" % (number, fault))
        if faults:
            received.why = "; ".join(faults[:MOST_CAUSES])

    def treat_member(self, received: Received, number: int) -> Optional[str]:
        """Treats a member of a bundle. Returns why it is no packet."""
        path = join(self.members, str(number))
        came = "%s.%d.pkt" % (short_name(received.came), number)
        if getsize(path) < LEAST_SIZE:
            return "no packet"
        with Packet(path) as packet:
            if not packet.is_type_2():
                return "no packet"
            verdict = self.judge.judge(packet, is_member=True)
            why: Optional[str] = None
            if verdict.way is Way.BACK:
                give_back(self.station, packet)
            elif verdict.way is Way.ASIDE:
                why = verdict.why
            else:
                self.pass_on(received, packet, verdict, came, "%s.%d" % (received.number, number))
                if verdict.damages:
                    why = damage_line(verdict)
        if why is not None:
            self.disk.flush(path)
            put_aside(self.station, path, came, why, verdict.sender)
        return None


def short_name(name: str) -> str:
    """A name that leaves room for a number."""
    return os.fsdecode(os.fsencode(name)[:MOST_STEM])


def damage_line(verdict: Verdict) -> str:
    """The reason for a packet of which a part could be read."""
    count = verdict.echomail + len(verdict.letters)
    return "%d messages passed on; %s" % (count, "; ".join(verdict.damages[:MOST_CAUSES]))


def clean_up(station: Station) -> None:
    """Removes what belongs to received files that are gone: of this run, and of a stopped one. A mark of a letter whose
    packet is gone could make a later packet lose a letter: it goes before numbers are used again."""
    for name in names_in(station.at("gate")):
        is_left = name.endswith(LEFT_OVER) and not lexists(station.at("gate", name[:8] + ".in"))
        if is_left or name.endswith(".new"):
            station.disk.unlink(station.at("gate", name))
    for name in names_in(station.at("tossing")):
        if name.endswith(".name") and not lexists(station.at("tossing", name[:-5] + ".pkt")):
            station.disk.unlink(station.at("tossing", name))


def pass_gate(station: Station) -> Status:
    """Runs the gate. The caller has the lock."""
    station.load()
    return Gate(station).run()


def gate(station: Station, _: list[str]) -> Status:
    """The command `gate`."""
    station.lock("toss.lock")
    return pass_gate(station)
