"""What becomes of a packet: whether it is taken, and which of its messages go where. Nothing is changed here."""
from __future__ import annotations

import struct
from dataclasses import dataclass, field
from enum import Enum
from typing import Iterator, Optional

from fidonet.addresses import Address
from fidonet.letter_addresses import Route, route_of
from fidonet.messages import MOST_TEXT, Damage, Message, read_messages, with_names
from fidonet.packets import END, HEADER_SIZE, Header, Packet, header_of
from fidonet.rescanned import WORD as RESCANNED
from fidonet.rescanned import is_rescanned, seen_by_all
from fidonet.seen_by import Places, text_without

from .letter_ways import LetterWays, is_robot
from .station import Station

AREA = b"AREA:"


class Way(Enum):
    """What becomes of a packet as a whole."""

    ON = "to toss"
    ASIDE = "to bad"
    BACK = "to the inbound folder, for another station"


@dataclass(frozen=True)
class Piece:
    """Messages that go on as they are, or one that is changed."""

    start: int
    end: int
    changed: Optional[Message] = None


@dataclass
class Verdict:
    """What becomes of a packet. Letters are filed; foreign ones, and a packet with damage, go to bad/."""

    way: Way
    header: bytes = b""
    sender: str = "-"
    why: str = ""
    pieces: list[Piece] = field(default_factory=list)
    letters: list[tuple[Message, Route]] = field(default_factory=list)
    requests: list[tuple[Message, Route]] = field(default_factory=list)  # for AreaFix
    foreign: list[tuple[Message, Route]] = field(default_factory=list)
    advice: list[str] = field(default_factory=list)  # on the foreign ones
    read_only: list[Message] = field(default_factory=list)
    read_only_tags: dict[str, int] = field(default_factory=dict)
    cuts: list[str] = field(default_factory=list)
    damages: list[str] = field(default_factory=list)
    echomail: int = 0
    has_changed: bool = False
    points: Places = field(default_factory=set)  # those to take out of SEEN-BY lines
    links: dict[str, list[Address]] = field(default_factory=dict)  # of areas in which rescanned messages go no further

    def is_whole(self) -> bool:
        """Whether all messages go on as they are."""
        sorted_out = self.letters or self.requests or self.foreign or self.read_only
        return not (sorted_out or self.cuts or self.damages or self.has_changed)

    def has_output(self) -> bool:
        """Whether there is a packet for toss. One without any messages is one."""
        return bool(self.pieces) or self.is_whole()


class Judge:
    """Judges the packets of a station."""

    def __init__(self, station: Station) -> None:
        self.station = station
        self.peers = station.peers
        self.ways = LetterWays(station)
        self.links = {} if station.settings.get("RESCANNED") == "pass" else station.areas

    def judge(self, packet: Packet, is_member: bool) -> Verdict:
        """Judges a packet. One that cannot be read goes on, and `toss` names its fault."""
        if not packet.is_type_2():
            return Verdict(Way.ON, packet.header())
        begin = packet.header()
        header = header_of(begin, self.station.own.zone)
        sender = str(header.sender)
        if self.is_for_other_station(header.destination):
            if is_member:
                return Verdict(Way.BACK, begin, sender)
            return Verdict(Way.ASIDE, begin, sender, "not for this system but %s" % header.destination)
        why = self.refusal(header)
        if why:
            return Verdict(Way.ASIDE, begin, sender, why)
        points = set() if header.sender in self.peers.fake_of else self.station.point_places
        links = self.links if packet.contains(RESCANNED) else {}
        verdict = Verdict(Way.ON, self.passed_header(begin, header), sender, points=points, links=links)
        self.sort(packet, header, verdict)
        return verdict

    def is_mine(self, address: Address) -> bool:
        """Whether a packet for this address is for this station."""
        return self.station.is_own(address) or self.peers.fake_of.get(address) == self.station.own

    def is_for_other_station(self, address: Address) -> bool:
        """Whether another station of this inbound folder takes packets for this address."""
        return not self.is_mine(address) and address in self.peers.leaves

    def refusal(self, header: Header) -> str:
        """Why a packet is not taken, or nothing."""
        sender, destination = header.sender, header.destination
        if destination.point and not self.is_mine(destination):
            return "not for this system but %s" % destination
        fake = self.peers.fake_of.get(sender)
        if sender.point and fake is None:
            return "unknown point %s" % sender
        wanted = self.peers.peer(fake or sender).password
        if wanted and header.password.upper() != wanted.upper():
            return "%s packet password of %s" % ("wrong" if header.password else "no", sender)
        return ""

    def passed_header(self, begin: bytes, header: Header) -> bytes:
        """The header as scans of echonet write it, whatever the sender has there."""
        sender_fake = self.peers.fake_of.get(header.sender)
        sender = sender_fake or header.sender
        destination_fake = self.peers.fake_of.get(header.destination)
        destination = self.station.own if destination_fake == self.station.own else header.destination
        new = bytearray(begin)
        new[24:34] = bytes(10)
        new[38:58] = bytes(20)
        struct.pack_into("<2H", new, 0, sender.node, destination.node)
        struct.pack_into("<2H", new, 20, sender.net, destination.net)
        has_zone = header.has_sender_zone or sender_fake is not None
        has_own_zone = header.has_destination_zone or destination_fake is not None
        struct.pack_into("<2H", new, 34, sender.zone if has_zone else 0, destination.zone if has_own_zone else 0)
        return bytes(new)

    def sort(self, packet: Packet, header: Header, verdict: Verdict) -> None:
        """Sorts the messages: echomail for toss, letters, and those that need care."""
        link = self.peers.link_of(header.sender)
        may_be_read_only = {tag for tag in self.peers.read_only if self.peers.is_read_only(tag, link)}
        for found in read_messages(packet):
            if isinstance(found, Damage):
                verdict.damages.append(str(found))
                continue
            verdict.cuts += found.too_long
            if not found.is_echomail:
                self.sort_letter(packet, found, route_of(with_names(packet, found), packet, header), verdict, link)
            elif may_be_read_only and tag_of(found.text_of(packet)) in may_be_read_only:
                tag = tag_of(found.text_of(packet))
                verdict.read_only.append(found)
                verdict.read_only_tags[tag] = verdict.read_only_tags.get(tag, 0) + 1
            else:
                self.keep(packet, found, verdict)

    def sort_letter(self, packet: Packet, letter: Message, route: Route, verdict: Verdict, link: Address) -> None:
        """Sorts a letter: for AreaFix, for netmail/, or for bad/."""
        if self.station.is_own(route.to) and self.ways.has_areafix and is_robot(letter.name_of(packet, 0)):
            verdict.requests.append((letter, route))
            return
        refusal = None
        if link not in self.peers.real_of and not self.ways.is_here(route.to):
            refusal = self.ways.refusal(route, letter.numbers(packet)[4], letter.text_of(packet))
        if refusal is None:
            verdict.letters.append((letter, route))
            return
        verdict.foreign.append((letter, route))
        if refusal and refusal not in verdict.advice:
            verdict.advice.append(refusal)

    def keep(self, packet: Packet, message: Message, verdict: Verdict) -> None:
        """Notes a message that goes on to toss."""
        verdict.echomail += 1
        needs_text = bool(verdict.points or verdict.links)
        has_other_text = needs_text and changed_text(message.text_of(packet), verdict) is not None
        if message.too_long or has_other_text:
            verdict.has_changed = True
            verdict.pieces.append(Piece(message.place, message.end, with_names(packet, message)))
            return
        last = verdict.pieces[-1] if verdict.pieces else None
        if last and last.end == message.place and not last.changed:
            verdict.pieces[-1] = Piece(last.start, message.end)
        else:
            verdict.pieces.append(Piece(message.place, message.end))


def tag_of(text: bytes) -> str:
    """The tag in the first line of an echomail text."""
    return text.lstrip(b"\n")[len(AREA) :].split(b"\r", 1)[0].strip(b" \t\n").decode("latin-1").upper()


def changed_text(text: bytes, verdict: Verdict) -> Optional[bytes]:
    """The text that goes on, if it is another one: without points, and with all links in the SEEN-BY of what a rescan
    sent. One that would be too long stays."""
    new = text_without(text, verdict.points) if verdict.points else None
    if verdict.links and is_rescanned(text):
        links = verdict.links.get(tag_of(text), ())
        longer = seen_by_all(text if new is None else new, {link.place() for link in links})
        return longer if len(longer) <= MOST_TEXT else new
    return new


def output_of(packet: Packet, verdict: Verdict) -> Iterator[bytes]:
    """The bytes of the packet that goes on to toss."""
    packet.reread()
    yield verdict.header
    if verdict.is_whole():
        yield from packet.pieces(HEADER_SIZE, packet.size)
        return
    for piece in verdict.pieces:
        if piece.changed is None:
            yield from packet.pieces(piece.start, piece.end)
        else:
            text = changed_text(piece.changed.text_of(packet), verdict)
            yield piece.changed.mended(packet, text)
    yield END


def packet_of(packet: Packet, messages: list[Message]) -> Iterator[bytes]:
    """The bytes of a packet of some messages, with the header that came."""
    packet.reread()
    yield packet.header()
    for message in messages:
        yield from packet.pieces(message.place, message.end)
    yield END
