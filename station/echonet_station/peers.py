"""The file `peers`: packet passwords, types of packets, points, the way of letters, and what links may do."""
from __future__ import annotations

import re
from os.path import lexists
from typing import NamedTuple, Optional

from fidonet.addresses import Address, address_of

from .faults import Status, Stopped

MOST_BYTES = 1 << 20
MOST_PASSWORD = 8
LEAST_AREAFIX, MOST_AREAFIX = 6, 35
GROUPS = re.compile("[A-Z]+")
TAG = re.compile("[!-~]{1,60}")
FLAGS = ("PLUS", "HOLD", "PASS")
VALUES = ("PASSWORD", "AREAFIX", "GROUPS")
BAD_BYTE = re.compile(rb"[^\t -~]")


class Peer(NamedTuple):
    """What a system wants of packets."""

    password: bytes = b""
    plus: bool = False
    holds: bool = False  # the mailer does not call it
    passes: bool = False  # letters for it and from it are passed on
    areafix: str = ""  # the word by which its letters change what it gets
    groups: str = ""  # of the areas that it may ask for


class Peers:
    """What the lines of the file say. A point has an address of a node, its fake one, in `links`."""

    def __init__(self) -> None:
        self.peers: dict[Address, Peer] = {}
        self.real_of: dict[Address, Address] = {}
        self.fake_of: dict[Address, Address] = {}
        self.route: Optional[Address] = None
        self.leaves: set[Address] = set()
        self.leaves_all = False
        self.read_only: dict[str, set[Address]] = {}

    def link_of(self, address: Address) -> Address:
        """An address of the net as `links` has it: a point of this station has another one there."""
        return self.fake_of.get(address, address)

    def net_address(self, link: Address) -> Address:
        """The address on the net of a link."""
        return self.real_of.get(link, link)

    def is_read_only(self, tag: str, link: Address) -> bool:
        """Whether messages that a link sends of an area are not taken."""
        listed = self.read_only.get(tag)
        return listed is not None and (link in listed or self.net_address(link) in listed)

    def has_areafix(self) -> bool:
        """Whether any system may change by letter what it gets."""
        return any(peer.areafix for peer in self.peers.values())

    def peer(self, address: Address) -> Peer:
        """What the system at this address wants: nothing, if no line names it."""
        return self.peers.get(address, Peer())


class Reader:
    """Reads the lines. A fault names the line and never a word of it, since that may be a password."""

    def __init__(self) -> None:
        self.result = Peers()
        self.number = 0
        self.words: list[str] = []

    def fault(self, what: str) -> Stopped:
        """The fault of this line."""
        return Stopped(Status.REFUSED, "peers:%d: %s" % (self.number, what))

    def read(self, text: bytes) -> Peers:
        """Reads all lines."""
        for self.number, line in enumerate(text.split(b"\n"), 1):
            line = line[:-1] if line.endswith(b"\r") else line
            if not line.strip(b" \t") or line.startswith(b";"):
                continue
            if BAD_BYTE.search(line):
                raise self.fault("K1 BadByte")
            self.words = line.decode("ascii").split()
            self.read_line(self.words.pop(0))
            if self.words:
                raise self.fault("K2 BadWord")
        return self.result

    def read_line(self, word: str) -> None:
        """Reads the line that begins with this word."""
        result = self.result
        if word == "PEER":
            address = self.address()
            self.is_new(address, address in result.peers)
            result.peers[address] = self.marks()
        elif word == "POINT":
            self.read_point()
        elif word == "ROUTE":
            address = self.address()
            self.is_new(address, result.route is not None)
            result.route = address
        elif word == "LEAVE" and self.words == ["*"]:
            result.leaves_all = True
            self.words = []
        elif word == "LEAVE":
            address = self.address()
            self.is_new(address, address in result.leaves)
            result.leaves.add(address)
        elif word == "READONLY":
            self.read_read_only()
        else:
            raise self.fault("K2 BadWord")

    def read_read_only(self) -> None:
        """Reads READONLY TAG ADDRESS and further addresses."""
        tag = self.words.pop(0) if self.words else ""
        if not TAG.fullmatch(tag):
            raise self.fault("K2 BadWord")
        listed = self.result.read_only.setdefault(tag.upper(), set())
        while True:
            address = self.address(may_be_point=True)
            self.is_new(address, address in listed)
            listed.add(address)
            if not self.words:
                return

    def read_point(self) -> None:
        """Reads POINT FAKE REAL. Its packets are always of type 2+."""
        result = self.result
        fake = self.address()
        self.is_new(fake, fake in result.peers)
        real = self.address(may_be_point=True)
        self.is_new(real, real in result.fake_of)
        if not real.point:
            raise self.fault("K6 NoPoint")
        result.real_of[fake], result.fake_of[real] = real, fake
        result.peers[fake] = self.marks()._replace(plus=True)

    def address(self, may_be_point: bool = False) -> Address:
        """The address that comes next."""
        found = address_of(self.words.pop(0), may_be_point) if self.words else None
        if found is None:
            raise self.fault("K3 BadAddress")
        return found

    def is_new(self, address: Address, is_known: bool) -> None:
        """Refuses what an earlier line said."""
        if is_known:
            raise self.fault("K4 Repeated %s" % address)

    def marks(self) -> Peer:
        """What follows the addresses, each once, in any order."""
        found: dict[str, str] = {}
        while self.words:
            word = self.words.pop(0)
            if word in found or word not in FLAGS + VALUES or (word in VALUES and not self.words):
                raise self.fault("K2 BadWord")
            found[word] = self.words.pop(0) if word in VALUES else word
        password, areafix, groups = (found.get(word, "") for word in VALUES)
        if len(password) > MOST_PASSWORD:
            raise self.fault("K5 PasswordTooLong")
        if areafix and not LEAST_AREAFIX <= len(areafix) <= MOST_AREAFIX:
            raise self.fault("K7 WordLength")
        if groups and not GROUPS.fullmatch(groups):
            raise self.fault("K2 BadWord")
        plus, holds, passes = (word in found for word in FLAGS)
        return Peer(password.encode("ascii"), plus, holds, passes, areafix, groups)


def peers_at(path: str) -> Peers:
    """The file at a path, or what holds without one."""
    if not lexists(path):
        return Peers()
    with open(path, "rb") as file:
        text = file.read(MOST_BYTES + 1)
    if len(text) > MOST_BYTES:
        raise Stopped(Status.REFUSED, "peers: over %d bytes" % MOST_BYTES)
    return Reader().read(text)
