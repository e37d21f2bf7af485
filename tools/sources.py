"""The sources of links-seen: JAM bases, stored messages, packets and lines of JSON. Each gives its messages one by one."""
import json
import os
import re
import struct
import sys
import time
from collections import Counter
from typing import BinaryIO, Callable, Iterator, NamedTuple, Optional

from fidonet import echomail
from fidonet import jam, packets, stored

ORIGIN = re.compile(rb'"?(?:[^@"]*@)?([0-9]+):([0-9]+)/[0-9]+(?:\.[0-9]+)?(?:@[^\s"]*)?"?')

Zones = Callable[[int, int], None]


class Unusable(Exception):
    """A source that is missing or cannot be opened."""


class Mail(NamedTuple):
    """A message: its area, its identity, its PATH lines, and its day as YYYY-MM-DD, or nothing."""
    area: str
    identity: bytes
    path: bytes
    day: str


class Source:
    """A source of messages. `damage` counts what cannot be read, `zones` gets each zone that names a net."""

    def __init__(self, path: str, area: str = "") -> None:
        self.path, self.area, self.damage = path, area, Counter[str]()
        self.origins: set[bytes] = set()

    def open(self) -> None:
        """Opens it, or raises Unusable."""

    def mails(self, zones: Zones) -> Iterator[Mail]:
        """Its messages in order."""
        raise NotImplementedError

    def name_zone(self, found: Optional[bytes], zones: Zones) -> None:
        """The zone in the address of an id."""
        words = found.split() if found else []
        if words and words[0] not in self.origins:
            self.origins.add(words[0])
            address = ORIGIN.fullmatch(words[0])
            if address:
                zones(int(address[1]), int(address[2]))

    def mail(self, area: str, text: echomail.Text, names: tuple[bytes, ...], date: bytes, zones: Zones) -> Mail:
        """The message of a text, with its names, subject and DateTime."""
        lines = text.lines + text.tail
        found, moment = echomail.first_id(lines), echomail.moment_of(date)
        self.name_zone(found, zones)
        codec = "ascii" if found and found.isascii() else echomail.codec_of(lines)
        if found:
            identity = identity_of_id(found.decode(codec, "replace"))
        else:
            parts = [part.decode(codec, "replace") for part in (*names, date.rstrip(b"\0"))]
            parts[-1] = moment or parts[-1]
            identity = identity_of_text(parts, [line.decode(codec, "replace") for line in text.lines])
        return Mail(area, identity, echomail.path_of(text.tail), moment[:10] if moment else "")


def identity_of_id(found: str) -> bytes:
    """What identifies a message with an id in its area."""
    return b"I" + found.encode("utf-8", "surrogatepass")


def identity_of_text(parts: list[str], lines: list[str]) -> bytes:
    """What identifies a message without an id: names, date, subject, and the lines before its control tail."""
    return b"T" + "\0".join(parts + lines).encode("utf-8", "surrogatepass")


class JamBase(Source):
    """A JAM base of one area."""

    def open(self) -> None:
        try:
            self.base = jam.Base(self.path)
        except (jam.NoBase, OSError) as error:
            raise Unusable(self.path) from error
        self.days: dict[int, str] = {}

    def mails(self, zones: Zones) -> Iterator[Mail]:
        for message in self.base.messages():
            if message is None:
                self.damage["damaged messages"] += 1
            else:
                yield self.quick(message, zones) or self.whole(message, zones)

    def quick(self, message: jam.Message, zones: Zones) -> Optional[Mail]:
        """The message by its subfields alone, if its text cannot add to them."""
        path: Optional[bytes] = None
        found = b""
        for kind, content in message.fields:
            if kind == jam.PATH:
                if b"\r" in content:
                    return None
                path = content if path is None else b"\r".join((path, content))
            elif kind == jam.MSGID and not found:
                found = content.replace(b"\0", b"").strip(echomail.BLANKS)
            elif kind == jam.KLUDGE and content[:5] in (b"MSGID", b"PATH:"):
                return None
        if not found or not found.isascii() or b"\r" in found or b"\x01PATH:" in message.text:
            return None
        self.name_zone(found, zones)
        return Mail(self.area, b"I" + found, (path or b"").replace(b"\0", b""), self.day(message))

    def whole(self, message: jam.Message, zones: Zones) -> Mail:
        """The message by all its lines."""
        first = jam.first_fields(message)
        names = tuple(first.get(kind, b"") for kind in (jam.TO, jam.BY, jam.SUBJECT))
        written = message.numbers[jam.WRITTEN]
        date = time.strftime("%d %b %y  %H:%M:%S", time.gmtime(written)).encode() if written else b""
        text = echomail.read(echomail.lines_of(echomail.text_of_jam(message)))
        return self.mail(self.area, text, names, date, zones)._replace(day=self.day(message))

    def day(self, message: jam.Message) -> str:
        """The day on which a message was written, if there is one."""
        written = message.numbers[jam.WRITTEN]
        day = self.days.get(written // 86400)
        if day is None:
            day = self.days[written // 86400] = time.strftime("%Y-%m-%d", time.gmtime(written))
        return day if written else ""


class Folder(Source):
    """A folder of files with some names."""
    names = re.compile("")

    def open(self) -> None:
        try:
            self.files = [name for name in os.listdir(self.path) if self.names.fullmatch(name)]
        except (OSError, ValueError) as error:
            raise Unusable(self.path) from error

    def contents(self) -> Iterator[bytes]:
        """The bytes of each file, ascending by name."""
        for name in sorted(self.files, key=lambda name: (len(name), name)):
            path = os.path.join(self.path, name)
            try:
                if not os.path.isfile(path):
                    raise OSError
                with open(path, "rb") as file:
                    content = file.read()
            except OSError:
                self.damage["damaged files"] += 1
            else:
                yield content


class Stored(Folder):
    """Stored messages of one area (FTS-0001)."""
    names = re.compile(r"[0-9]+\.msg", re.IGNORECASE | re.ASCII)

    def mails(self, zones: Zones) -> Iterator[Mail]:
        for content in self.contents():
            if len(content) < stored.HEAD_SIZE:
                self.damage["damaged messages"] += 1
                continue
            message = stored.Stored("", content)
            names = tuple(map(message.field, ("to", "from", "subject")))
            text = echomail.read(echomail.lines_of(message.text()))
            yield self.mail(self.area, text, names, message.field("date"), zones)


class Packets(Folder):
    """Packets of type 2 (FTS-0001)."""
    names = re.compile(r".*\.pkt", re.IGNORECASE | re.DOTALL)

    def mails(self, zones: Zones) -> Iterator[Mail]:
        for content in self.contents():
            if len(content) < packets.HEADER_SIZE or content[packets.PACKET_TYPE] != packets.TYPE_2:
                self.damage["damaged files"] += 1
                continue
            nets, of_zones = struct.unpack_from("<2H", content, 20), struct.unpack_from("<2H", content, 34)
            for zone, net in zip(of_zones, nets):
                zones(zone, net)
            yield from self.messages(content, zones)

    def messages(self, content: bytes, zones: Zones) -> Iterator[Mail]:
        """The messages of a packet, up to its first damage."""
        for fields in packets.strict_messages(content):
            if fields is None:
                self.damage["damaged files"] += 1
                return
            date, *parts = (content[start:end] for start, end in fields)
            text = echomail.read(echomail.lines_of(parts.pop()))
            tag = echomail.tag_of(text.area) if text.area is not None else None
            if tag is None:
                self.damage["messages of no area"] += 1
            else:
                yield self.mail(tag.decode(), text, tuple(parts), date, zones)


class JsonLines(Source):
    """Lines of `echonet export --json`. The path `-` is standard input."""

    def open(self) -> None:
        try:
            self.file: BinaryIO = sys.stdin.buffer if self.path == "-" else open(self.path, "rb")
        except (OSError, ValueError) as error:
            raise Unusable(self.path) from error

    def mails(self, zones: Zones) -> Iterator[Mail]:
        for line in self.file:
            try:
                mail = self.read(json.loads(line), zones)
            except (ValueError, TypeError, KeyError, AttributeError, RecursionError):
                self.damage["damaged messages"] += 1
            else:
                yield mail

    def read(self, message: dict[str, object], zones: Zones) -> Mail:
        """The message of an object."""
        area, found, path = text_in(message, "area"), message["msgid"], list_in(message, "path")
        tag = echomail.tag_of(area.encode())
        if tag is None or found is not None and not isinstance(found, str):
            raise ValueError
        sender = message["sender"]
        address = re.fullmatch("([0-9]+):([0-9]+)/[0-9]+", sender) if isinstance(sender, str) else None
        if address:
            zones(int(address[1]), int(address[2]))
        self.name_zone((found or "").encode("utf-8", "surrogatepass"), zones)
        date = text_in(message, "date")
        moment = echomail.moment_of(date.encode("utf-8", "surrogatepass"))
        identity = identity_of_id(found) if found else self.identity(message, moment or date)
        return Mail(tag.decode(), identity, " ".join(path).encode("utf-8", "surrogatepass"), moment[:10] if moment else "")

    @staticmethod
    def identity(message: dict[str, object], date: str) -> bytes:
        """The identity of a message without an id."""
        lines = [line.encode("utf-8", "surrogatepass") for line in list_in(message, "lines")]
        kept = [line.decode("utf-8", "surrogatepass") for line in echomail.read([echomail.AREA] + lines).lines]
        return identity_of_text([text_in(message, part) for part in ("to", "from", "subject")] + [date], kept)


def text_in(message: dict[str, object], name: str) -> str:
    """A member that has to be a text."""
    value = message[name]
    if not isinstance(value, str):
        raise TypeError
    return value


def list_in(message: dict[str, object], name: str) -> list[str]:
    """A member that has to be a list of texts."""
    value = message[name]
    if not isinstance(value, list) or not all(isinstance(item, str) for item in value):
        raise TypeError
    return value


def source_of(word: str) -> Optional[Source]:
    """The source of an argument. None for a word that is none."""
    kind, colon, rest = word.partition(":")
    if kind in ("packets", "json") and rest:
        return Packets(rest) if kind == "packets" else JsonLines(rest)
    tag, colon, path = rest.partition(":")
    area = echomail.tag_of(tag.encode("utf-8", "surrogateescape"))
    if kind not in ("jam", "msg") or area is None or area != tag.encode("utf-8", "surrogateescape").upper() or not path:
        return None
    return JamBase(path, area.decode()) if kind == "jam" else Stored(path, area.decode())
