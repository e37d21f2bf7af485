"""Calls of `echonet toss`, and what they say of each packet."""
from __future__ import annotations

import os
import re
import subprocess
from collections import Counter
from dataclasses import dataclass, field
from os.path import basename
from typing import IO, Optional

from fidonet.addresses import Address
from fidonet.messages import MOST_TEXT

from .calls import NOTE, kept_locks, program, status_of
from .faults import Status
from .signals import Waiting
from .station import Station

COUNTS = re.compile(r"filed ([0-9]+) known ([0-9]+) notecho ([0-9]+) badtag ([0-9]+) noarea ([0-9]+) notlinked ([0-9]+)")
MESSAGE = re.compile(r"message [0-9]+ at [0-9]+ ([a-z]+)(?: area (\S+))?")
NONE = "filed 0 known 0 notecho 0 badtag 0 noarea 0 notlinked 0"
# What ends a toss at a packet, after the messages before were written.
OWN_FAULT = re.compile(r"echonet: (?:P[1-5] [A-Za-z0-9]+ at [0-9]+|C1 .*)")
UNUSABLE = "echonet: cannot use "
NO_MEMORY = re.compile(r"echonet: (?:P7 .*|C2 .*|out of memory)")
KILLED = 128


@dataclass
class Told:
    """What a toss said of a packet: its counts, its refused messages, and its known ones by area."""

    counts: str = NONE
    refused: list[str] = field(default_factory=list)
    known: Counter[str] = field(default_factory=Counter)
    areas: dict[str, Counter[str]] = field(default_factory=dict)  # of refused messages, by outcome

    def add(self, line: str) -> None:
        """Takes a line on a message that was not filed."""
        found = MESSAGE.match(line)
        if not found:
            return
        outcome, tag = found[1], found[2] or ""
        if outcome == "known":
            self.known[tag] += 1
        else:
            self.refused.append(line)
            self.areas.setdefault(outcome, Counter())[tag] += 1

    def is_whole(self) -> bool:
        """Whether all messages were filed or known."""
        found = COUNTS.fullmatch(self.counts)
        return found is not None and all(count == "0" for count in found.groups()[2:])

    def reason(self, sender: Optional[Address]) -> str:
        """Why messages were refused, in sentences."""
        sentences = []
        lacking = self.areas.get("noarea")
        if lacking:
            tags = sorted(lacking)
            advice = ", ".join("accept %s" % tag for tag in tags)
            sentences.append("%s for areas that you do not have: %s (%s)" % (many(sum(lacking.values())), ", ".join(tags), advice))
        for tag, count in sorted(self.areas.get("notlinked", Counter[str]()).items()):
            sentences.append("%s not from a link of %s (subscribe %s %s)" % (many(count), tag, sender or "-", tag))
        letters, spoiled = (sum(self.areas.get(outcome, Counter[str]()).values()) for outcome in ("notecho", "badtag"))
        if letters:
            sentences.append("%s that %s no echomail" % (many(letters), "is" if letters == 1 else "are"))
        if spoiled:
            sentences.append("%s with a bad tag" % many(spoiled))
        return "; ".join(sentences)


def many(count: int) -> str:
    """A number of messages."""
    return "%d message%s" % (count, "" if count == 1 else "s")


@dataclass
class Tossed:
    """How a toss ended, and what it said of each packet that it began."""

    status: int
    told: list[Told]
    fault: str
    note: str

    def faulty(self, packets: list[str]) -> Optional[int]:
        """The number of the packet whose own fault ended the toss. Then the lines of the packets before it count."""
        if self.status == Status.REFUSED and OWN_FAULT.fullmatch(self.fault) and self.told:
            return len(self.told) - 1
        if self.status == Status.FAILED and self.fault.startswith(UNUSABLE) and len(self.told) < len(packets):
            place = len(self.told)
            return place if self.fault.endswith("/tossing/" + basename(packets[place])) else None
        return None

    def lacked_memory(self) -> bool:
        """Whether the program was killed, or memory ran out."""
        return self.status > KILLED or (self.status == Status.FAILED and NO_MEMORY.fullmatch(self.fault) is not None)

    def faults(self) -> str:
        """What it said of its end."""
        return "\n".join(filter(None, (self.fault, self.note))) or "echonet-station: toss ended with status %d" % self.status


def read_told(lines: IO[bytes]) -> list[Told]:
    """What a toss prints. The lines on messages come before that of their packet."""
    packets, current = [], Told()
    for line in lines:
        text = os.fsdecode(line.rstrip(b"\n"))
        if COUNTS.fullmatch(text):
            current.counts = text
            packets.append(current)
            current = Told()
        else:
            current.add(text)
    return packets


def call_toss(station: Station, packets: list[str]) -> Tossed:
    """Tosses packets. No text may be much longer than `post` allows: a scan adds lines, so a longer text would be too long
    for the links. The list of packets is a file, since the program explains a fault only then."""
    with memory_file("packets") as listed, memory_file("faults") as faults:
        listed.write(b"".join(os.fsencode(path) + b"\0" for path in packets))
        listed.flush()
        words = ("toss", "--explain", "--each", "--text-limit", str(MOST_TEXT), "--packets-from", "/proc/self/fd/%d" % listed.fileno())
        with Waiting():
            ran = subprocess.Popen(
                (program(), *words, station.at("links"), station.at("base")),
                stdin=subprocess.DEVNULL,
                stdout=subprocess.PIPE,
                stderr=faults,
                pass_fds=(listed.fileno(), *kept_locks),
            )
            assert ran.stdout is not None
            with ran.stdout:
                told = read_told(ran.stdout)
            ran.wait()
        faults.seek(0)
        said = os.fsdecode(faults.read()).split("\n")
    notes = [line for line in said if line.startswith(NOTE) and not line.endswith(": new base")]
    others = [line for line in said if line and not line.startswith(NOTE)]
    return Tossed(status_of(ran.returncode), told, others[-1] if others else "", "\n".join(notes))


def memory_file(name: str) -> IO[bytes]:
    """A file in memory: a full disk is no reason not to toss."""
    return open(os.memfd_create(name), "w+b")
