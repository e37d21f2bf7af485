"""The bytes of packets, texts, bases and link files, by docs/FORMATS.md and by nothing else.

The trials share some messages, the plain ones. They go from 1:10/2 to 1:10/1, which passes them on to 1:10/3 and
1:10/4. This module also computes what the program has to make of them: the base of 1:10/1 after the toss, the packets
of its scan, and the bases of the systems that get these.
"""
import os
import random
import struct
import tempfile

DATE = b"03 Jul 26  12:34:56\0"
STAMP = "2026-07-03T12:34:56"
MOMENT = (2026, 6, 3, 12, 34, 56)
OWN, UPLINK, DOWNLINKS = (1, 10, 1), (1, 10, 2), ((1, 10, 3), (1, 10, 4))
LONGEST_LINE = 79


def try_hundreds(count, try_base):
    """Tries bases of a hundred messages, each in a folder of its own. Prints the seed: SEED makes the same again."""
    seed = int(os.environ.get("SEED", random.randrange(2 ** 32)))
    print("seed %d" % seed)
    chance = random.Random(seed)
    for _ in range(0, count, 100):
        with tempfile.TemporaryDirectory() as place:
            try_base(chance, place, min(count, 100))
    return chance


def shown(address):
    """An address as text."""
    return "%d:%d/%d" % address


def header(origin, destination, kind=2):
    """The 58 bytes at the beginning of a packet."""
    return struct.pack(
        "<12H2B8s2H20s", origin[2], destination[2], *MOMENT, 0, kind, origin[1], destination[1],
        0, 0, bytes(8), origin[0], destination[0], bytes(20))


def packed(origin, destination, text, to=b"All", by=b"Ann", subject=b"Hi", date=DATE):
    """A packed message."""
    numbers = struct.pack("<7H", 2, origin[2], destination[2], origin[1], destination[1], 0, 0)
    return b"".join((numbers, date, to, b"\0", by, b"\0", subject, b"\0", text, b"\0"))


def packet(origin, destination, messages):
    """A whole packet of packed messages."""
    return header(origin, destination) + b"".join(messages) + b"\0\0"


def list_lines(lead, entries):
    """SEEN-BY or PATH lines of these entries, each a net and a node."""
    lines, line, last = [], lead, None
    for net, node in entries:
        word = " %d" % node if net == last else " %d/%d" % (net, node)
        if len(line) + len(word) > LONGEST_LINE:
            lines.append(line)
            line, word = lead, " %d/%d" % (net, node)
        line, last = line + word, net
    return "".join(each + "\r" for each in lines + [line] * bool(entries)).encode()


def text(tag, kept, seen, path):
    """An echomail text of kept lines."""
    lines = b"".join(line + b"\r" for line in [b"AREA:" + tag] + kept)
    return lines + list_lines("SEEN-BY:", seen) + list_lines("\x01PATH:", path)


def stored(first, sender, body, to=b"All", by=b"Ann", subject=b"Hi", date=DATE):
    """A message of a base: its first byte, sender, date, names, subject, and the bytes after these."""
    names = b"".join(bytes([len(name)]) + name for name in (to, by, subject))
    return bytes([first]) + struct.pack("<3H", *sender) + date + names + body


def whole_body(written):
    """The text of a message of a base."""
    return struct.pack("<I", len(written)) + written


def purged_body(tag, msgid):
    """What a purge leaves of a text."""
    return bytes([len(tag)]) + tag + struct.pack("<I", len(msgid)) + msgid


def base(cursor, messages, version=2):
    """A base file."""
    front = b"ECHOBAS%d" % version + struct.pack("<II", cursor, len(messages))
    return front + b"".join(messages)


def link_file(system, areas, name=None):
    """A link file: its areas are pairs of a tag and a list of addresses."""
    lines = ["SYSTEM " + shown(system)]
    if name is not None:
        lines.append("NAME " + name)
    lines += [" ".join(["AREA", tag] + [shown(link) for link in links]) for tag, links in areas]
    return "".join(line + "\n" for line in lines).encode()


def plain_id(serial):
    """The id of the plain message of this serial."""
    return b"1:10/2 %08x" % serial


def plain_kept(serial, size):
    """The kept lines of a plain message, with a body of about so many bytes."""
    line = b"%08x " % serial + b"x" * 61
    body = [line] * (size // 71) + [line[:size % 71]]
    tail = [b"--- trials", b" * Origin: Two (1:10/2)"]
    return [b"\x01MSGID: " + plain_id(serial)] + body + tail


def plain_text(serial, size, seen, path, tag=b"TEST"):
    """The text of a plain message after it went along a path."""
    return text(tag, plain_kept(serial, size), seen, path)


def pairs(addresses):
    """Nets and nodes of addresses."""
    return [address[1:] for address in addresses]


def arrived(serial, size, tag=b"TEST"):
    """The text of a plain message from 1:10/2."""
    return plain_text(serial, size, pairs([OWN, UPLINK]), pairs([UPLINK]), tag)


def passed_on(serial, size):
    """The text of a plain message as 1:10/1 passes it on."""
    everyone = pairs([OWN, UPLINK, *DOWNLINKS])
    return plain_text(serial, size, everyone, pairs([UPLINK, OWN]))


def plain_packet(serials, size):
    """The packet of plain messages from 1:10/2 to 1:10/1."""
    return packet(UPLINK, OWN, [packed(UPLINK, OWN, arrived(serial, size)) for serial in serials])


def spread_packet(serials, size, areas):
    """The same, over so many areas, T0 and so on."""
    return packet(UPLINK, OWN, [
        packed(UPLINK, OWN, arrived(serial, size, b"T%d" % (serial % areas))) for serial in serials])


def plain_base(serials, size, cursor):
    """The base of 1:10/1 that has tossed these."""
    return base(cursor, [stored(1, UPLINK, whole_body(arrived(serial, size))) for serial in serials])


def purged_base(serials):
    """The same base, all of it scanned, after a purge."""
    messages = [stored(3, UPLINK, purged_body(b"TEST", plain_id(serial))) for serial in serials]
    return base(len(messages), messages)


def posted_base(serials, size, cursor):
    """The same base after the posting of `Hello` with serial 1."""
    kept = [b"\x01MSGID: 1:10/1 00000001", b"Hello", b"--- echonet", b" * Origin: echonet (1:10/1)"]
    posting = stored(0, (0, 0, 0), whole_body(text(b"TEST", kept, [], [])))
    before = [stored(1, UPLINK, whole_body(arrived(serial, size))) for serial in serials]
    return base(cursor, before + [posting])


def scanned_packet(link, serials, size):
    """The packet that 1:10/1 makes of these for a link."""
    return packet(OWN, link, [packed(OWN, link, passed_on(serial, size)) for serial in serials])


def downlink_base(serials, size):
    """The base of a downlink that has tossed that packet."""
    return base(0, [stored(1, OWN, whole_body(passed_on(serial, size))) for serial in serials])


def read_base(content):
    """The cursor and the messages of a base: first byte, sender, names and subject, and the bytes after these."""
    version, cursor, count = content[:8], *struct.unpack_from("<II", content, 8)
    messages, at = [], 16
    for _ in range(count):
        first, sender, at = content[at], struct.unpack_from("<3H", content, at + 1), at + 27
        names = []
        for _ in range(3):
            names.append(content[at + 1:at + 1 + content[at]])
            at += 1 + content[at]
        tag = b""
        if version == b"ECHOBAS2" and first in (2, 3):
            tag, at = content[at + 1:at + 1 + content[at]], at + 1 + content[at]
        length, = struct.unpack_from("<I", content, at)
        at += 4 + length
        if at > len(content):
            raise ValueError("the base is cut")
        messages.append((first, sender, names, tag, content[at - length:at]))
    return cursor, messages


def id_of(message):
    """The id of a message of a base with the lines of a plain message or of a posting."""
    first, _, _, _, body = message
    if first in (2, 3):
        return body
    line = next(line for line in body.split(b"\r") if line.startswith(b"\x01MSGID: "))
    return line[len(b"\x01MSGID: "):]
