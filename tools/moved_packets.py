"""Shared by jam-to-packets and msg-to-packets: their arguments, and a packet of type 2 (FTS-0001) on standard
output."""
import sys
import time
from typing import NoReturn

from fidonet import packets, stored
from fidonet.addresses import Address, address_of

import command_line

LOCAL_AND_SENT = {"jam": (1, 16), "msg": (stored.LOCAL, stored.SENT)}


def address_in(word: str) -> Address:
    """The address that a word is."""
    found = address_of(word)
    if found is None:
        command_line.end(4, "bad address %s, expected zone:net/node" % ascii(word))
    return found


class Packet:
    """A packet of one area. FROM, TO, TAG and the path of the base are the arguments of the command line."""

    def __init__(self, kind: str, words: list[str]) -> None:
        if len(words) != 4:
            print("usage: %s FROM TO TAG PATH > PACKET" % command_line.name_of_tool(), file=sys.stderr)
            command_line.finish(4)
        self.origin, self.destination = address_in(words[0]), address_in(words[1])
        self.tag, self.path = words[2], words[3]
        self.local, self.sent = LOCAL_AND_SENT[kind]
        self.counts = {"messages": 0}
        self.write(packets.new_header(self.origin, self.destination, time.gmtime()))

    @staticmethod
    def write(content: bytes) -> None:
        """Adds bytes to the packet."""
        sys.stdout.buffer.write(content)

    def count(self, what: str) -> None:
        """Counts something that the last line reports."""
        self.counts[what] = self.counts.get(what, 0) + 1

    def field(self, content: bytes, most: int) -> bytes:
        """A name or a subject, cut to what a packet holds."""
        content = content.split(b"\0")[0]
        if len(content) > most:
            self.count("names or subjects cut")
        return content[:most]

    def add(self, date: bytes, to: bytes, by: bytes, subject: bytes, text: bytes, attribute: int) -> None:
        """Adds a message. The text is without its AREA line."""
        if attribute & self.local and not attribute & self.sent:
            self.count("never sent by the old tosser")
        if text and not text.rstrip(b"\n").endswith(b"\r"):
            text += b"\r"
        names = (self.field(to, 35), self.field(by, 35), self.field(subject, 71))
        numbers = (self.origin.node, self.destination.node, self.origin.net, self.destination.net, 0, 0)
        self.write(packets.packed(numbers, date.split(b"\0")[0], names, b"AREA:" + self.tag.encode() + b"\r" + text))
        self.count("messages")

    def finish(self) -> NoReturn:
        """Ends the packet, and reports the counts. The status is 1 if the operator should look at something."""
        self.write(packets.END)
        print("%s: %s" % (self.tag, ", ".join("%d %s" % (many, what) for what, many in self.counts.items())), file=sys.stderr)
        command_line.finish(1 if set(self.counts) & {"never sent by the old tosser", "damaged, left out"} else 0)
