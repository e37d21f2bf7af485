"""Judges the contents of a disk by docs/FORMATS.md only: messages that trials post, toss or write, in bases and
packets."""
import os
import re
import struct
import subprocess
from typing import NamedTuple

from lib import making, reading
from lib.contents import PROGRAM, read

LINKED = (making.UPLINK, *making.DOWNLINKS)
LINKS = making.link_file(making.OWN, [("TEST", LINKED)], "Alpha")
MSGID = re.compile(rb"\x01MSGID: [^\r]*\r")
STUB = re.compile(rb"AREA:TEST\r\x01MSGID: ([^\r]*)\r")


class Message(NamedTuple):
    """A message of these trials: how it is made (`post`, `toss`, or `write` by an editor), its number and its rough
    size."""
    way: str
    serial: int
    size: int

    def body(self):
        """Its lines."""
        return making.plain_kept(self.serial, self.size)[1:-2]

    def kept(self):
        """Its kept lines."""
        if self.way == "toss":
            return making.plain_kept(self.serial, self.size)
        return [b"\x01MSGID: 1:10/1 %08x" % self.serial, *self.body(), b"--- echonet", b" * Origin: Alpha (1:10/1)"]

    def filed(self):
        """Its text in the base."""
        if self.way == "toss":
            return making.arrived(self.serial, self.size)
        return making.text(b"TEST", self.kept(), [], [])

    def sent(self):
        """Its text in a packet of a scan."""
        path = [making.UPLINK, making.OWN] if self.way == "toss" else [making.OWN]
        return making.text(b"TEST", self.kept(), making.pairs([making.OWN, *LINKED]), making.pairs(path))

    def is_for(self, link):
        """Whether a link gets it."""
        return self.way != "toss" or link != making.UPLINK

    def is_whole(self, text, form):
        """Whether a text is this message's in this form. An editor's message gets its id from the clock."""
        if self.way == "write":
            return MSGID.sub(b"", text) == MSGID.sub(b"", form(self))
        return text == form(self)


def number_of(text):
    """The number of the message of a text or an id."""
    found = re.search(rb"\r([0-9a-f]{8}) x", text) or re.fullmatch(rb"1:10/[12] ([0-9a-f]{8})", text)
    return int(found[1], 16) if found else None


def content(*path):
    """The bytes of a file."""
    return read(os.path.join(*path))


def files_of(folder, end):
    """The names and bytes of the files of a folder that have this end of the name."""
    names = sorted(os.listdir(folder)) if os.path.isdir(folder) else []
    return {name: content(folder, name) for name in names if name.endswith(end)}


def texts_of(path):
    """The texts of the messages of a base, or the ids of those that are purged."""
    if os.path.isdir(path):
        log = content(path, "log") if os.path.exists(os.path.join(path, "log")) else b""
        records = [log[at:at + 50] for at in range(0, len(log), 50)]
        count = next((number for number, record in enumerate(records) if record[:1] != b"\1"), len(records))
        if count == 0:
            return []
        _, size, keys, cursor, digit, _, _, _ = struct.unpack("<B3QB3Q", records[count - 1])
        whole = b"ECHOBAS2" + struct.pack("<2I", cursor, keys // 16) + content(path, "messages.%d" % digit)[:size]
    elif os.path.exists(path):
        whole = content(path)
    else:
        return []
    # In a folder that `convert` made, a purged message may be a text with nothing but the id.
    return [stub[1] if (stub := STUB.fullmatch(message[4])) else message[4] for message in making.read_base(whole)[1]]


class Judge:
    """Runs commands, and notes what does not hold."""

    def __init__(self, work):
        self.work, self.faults, self.preload = work, [], ""

    def expect(self, what, held):
        """Notes what does not hold."""
        if not held:
            self.faults.append(what)

    def run(self, folder, *words, given=b"", wanted=0):
        """Runs a command in the folder of a station. It has to end with the wanted status, if one is given."""
        env = {**os.environ, "ECHONET": PROGRAM, "LD_PRELOAD": self.preload, "TMPDIR": self.work}
        ended = subprocess.run(words, cwd=folder, input=given, capture_output=True, timeout=120, check=False, env=env)
        what = "%s: %s" % (os.path.basename(folder), " ".join(map(os.path.basename, words)))
        self.expect("%s ends with %d, %r" % (what, ended.returncode, ended.stdout[-200:] + ended.stderr),
                    wanted in (None, ended.returncode))
        return ended.returncode

    def texts(self, what, texts, wanted, may, form=Message.filed):
        """Each of these texts has to belong to a message of `may`, whole, and no message may have two. Each wanted
        message has to have one. The text of a purged message is its id. Returns the numbers of the messages."""
        known, seen = {message.serial: message for message in may}, set()
        for text in texts:
            serial = number_of(text)
            self.expect("%s: %r comes twice" % (what, serial), serial not in seen)
            is_good = serial in known and (b"\r" not in text or known[serial].is_whole(text, form))
            self.expect("%s: %r is strange or not whole" % (what, text[:60] if serial is None else serial), is_good)
            seen.add(serial)
        lost = [message.serial for message in wanted if message.serial not in seen]
        self.expect("%s: lost %s" % (what, lost), not lost)
        return seen

    def packets(self, what, packets, wanted, may):
        """Each packet has to be whole. The packets for a link have to contain each wanted message for that link
        once."""
        found = {link: [] for link in LINKED}
        for name, packet in packets.items():
            messages, fault, size = reading.read_packet(packet, 1 << 20)
            is_whole = fault is None and size == len(packet)
            self.expect("%s: packet %s is not whole: %s" % (what, name, fault), is_whole)
            if is_whole:
                found[reading.read_header(packet)[1]] += [message.text for message in messages]
        for link, texts in found.items():
            mine, others = ([message for message in some if message.is_for(link)] for some in (wanted, may))
            self.texts("%s: packets for %s" % (what, making.shown(link)), texts, mine, others, Message.sent)

    def words(self, what, messages, packet="given.pkt"):
        """The arguments of a command of a station, and its standard input. For `toss` it makes a packet of the
        messages."""
        if what == "post":
            return ("post", "--area", "TEST", "--to", "All", "--from", "Ann", "--subject", "Hi", "--serial",
                    "%08x" % messages[0].serial, "--at", making.STAMP, "links", "base"), lines_of(messages[0])
        if what == "toss":
            packet = os.path.join(self.work, packet)
            with open(packet, "wb") as file:
                file.write(packet_of(messages))
            return ("toss", "links", "base", packet), b""
        return {"scan": ("scan", "--at", making.STAMP, "links", "base", "out"), "purge": ("purge", "links", "base"),
                "list": ("list", "base"), "mbox": ("export", "--mbox", "base"),
                "msg": ("export", "--msg", "msg", "--area", "TEST", "base"),
                "jam": ("export", "--jam", "jam", "--area", "TEST", "base")}[what], b""


def lines_of(message):
    """The body of a message as standard input."""
    return b"\n".join(message.body()) + b"\n"


def packet_of(messages):
    """The packet of these from the uplink."""
    ends = making.UPLINK, making.OWN
    return making.packet(*ends, [making.packed(*ends, message.filed()) for message in messages])
