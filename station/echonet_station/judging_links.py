"""Judges a new link before it is there: whether mail would go round, as `echonet check` says of the files at hand."""
from __future__ import annotations

import re
import shutil
import tempfile
from dataclasses import dataclass
from os.path import join
from typing import Iterable, Optional

from fidonet.addresses import Address, address_of

from .blocks import Links, block_of
from .calls import call, program
from .faults import Status
from .link_lines import links_in, reduced, with_area
from .net_files import NetFiles
from .station import Station

VERDICT = re.compile(r"(yes|no|alone) (\S+)(?: (V[0-9] .*))?")
ALSO = re.compile(r"also (V[0-9] .*)")
ABOUT_OTHERS = ("V2", "V6")


@dataclass(frozen=True)
class Refusal:
    """Why an area should not have a link: a loop, or else a verdict."""

    verdict: str
    loop: tuple[Address, ...] = ()
    others: tuple[Address, ...] = ()  # the systems of its block that the new link has already, without this one

    def __str__(self) -> str:
        return "would loop: " + " ".join(map(str, self.loop)) if self.loop else self.verdict

    def beside(self, system: Address, own: Address) -> Optional[Address]:
        """The system beside the new link by which it gets the area already: that of the loop, or of a ring if the loop goes
        round elsewhere in the block. Nothing without a loop."""
        if system in self.loop:
            place = self.loop.index(system)
            both = {self.loop[place - 1], self.loop[(place + 1) % len(self.loop)]}
            return min(both - {own})
        return min(self.others, default=None)


def tag_word(tag: str) -> bytes:
    """A tag as link files have it."""
    return tag.encode("latin-1")


def verdicts_in(output: str) -> dict[str, list[str]]:
    """The faults of each area, in the order of the lines."""
    found: dict[str, list[str]] = {}
    faults: list[str] = []
    for line in output.split("\n"):
        verdict, also = VERDICT.fullmatch(line), ALSO.fullmatch(line)
        if verdict:
            faults = found.setdefault(verdict[2], [])
        if verdict and verdict[3]:
            faults.append(verdict[3])
        elif also:
            faults.append(also[1])
    return found


def faults_of(texts: Iterable[bytes]) -> dict[str, list[str]]:
    """What `echonet check` finds in all areas of some link files. Systems without a file are assumed. Notes are asked for only if
    it fails: those on the faults of areas would be many, and nobody reads them."""
    folder = tempfile.mkdtemp(prefix="echonet.")
    words = ("check", "--all", "--more", "--assume-missing", "--links-from", "-")
    try:
        paths = []
        for number, text in enumerate(texts):
            paths.append(join(folder, str(number)))
            with open(paths[-1], "wb") as file:
                file.write(text)
        given = "\n".join(paths).encode()
        ran = call(program(), *words, given=given)
        if ran.status not in (Status.GOOD, Status.HAND):
            raise ran.stopped(call(program(), *words, "--explain", given=given).notes())
    finally:
        shutil.rmtree(folder, ignore_errors=True)
    return verdicts_in(ran.output)


def full_links(files: list[tuple[Address, bytes]], tag: bytes) -> Links:
    """The links of an area that both systems have. Who has no file has those that others have with it."""
    owners = {owner for owner, _ in files}
    listed: Links = {}
    for owner, text in files:
        for link in links_in(text, tag) or ():
            listed.setdefault(owner, set()).add(link)
            if link not in owners:
                listed.setdefault(link, set()).add(owner)
    return {one: {other for other in others if other != one and one in listed.get(other, ())} for one, others in listed.items()}


class Judge:
    """Judges new links of a station with the files of net/."""

    def __init__(self, station: Station) -> None:
        self.own = station.own
        net = NetFiles(station)
        self.left_out, self.notes = net.left_out, net.notes
        self.has_net = net.has_any
        self.files = [file for file in net.files if file.owner != self.own]

    def refusals(self, text: bytes, link: Address, tags: list[str]) -> dict[str, Refusal]:
        """Which of some areas should not have a link that the link file with this text does not have yet."""
        words = {tag_word(tag) for tag in tags}
        if not (words and self.has_net):
            return {}
        others = [(file.owner, reduced(file.text, words)) for file in self.files]
        before = [(self.own, reduced(text, words)), *others]
        after = [(owner, self.as_if(owner, content, link, words)) for owner, content in before]
        old, new = (faults_of(content for _, content in files) for files in (before, after))
        found = ((tag, self.refusal(after, link, tag, old.get(tag, []), new.get(tag, []))) for tag in tags)
        return {tag: refusal for tag, refusal in found if refusal}

    def as_if(self, owner: Address, content: bytes, link: Address, words: set[bytes]) -> bytes:
        """A file with the link: the own one, and those of the link."""
        for word in sorted(words):
            if owner == self.own and links_in(content, word) is not None:
                content = with_area(content, word, link)
            elif owner == link:
                content = with_area(content, word, self.own)
        return content

    def refusal(self, files: list[tuple[Address, bytes]], link: Address, tag: str, old: list[str], new: list[str]) -> Optional[Refusal]:
        """Why the link should not be, if so."""
        loops = [fault for fault in new if fault.startswith("V8 ")]
        links = full_links(files, tag_word(tag)) if loops else {}
        block = block_of(links, self.own, link) if loops else set()
        for fault in loops:
            loop = tuple(it for it in map(address_of, fault.split(" ")[2:]) if it)
            if len(block.intersection(loop)) > 1:  # two blocks have one system in common at most
                return Refusal(fault, loop, tuple(sorted(links[link] & block - {self.own})))
        others = (it for it in new if it.startswith(ABOUT_OTHERS) and it not in old)
        return next(map(Refusal, others), None)
