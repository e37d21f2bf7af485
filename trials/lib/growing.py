"""Grown inputs: tables that describe them, and a function for each from a size to its bytes."""
import struct

from lib import making

OWN, UPLINK = making.OWN, making.UPLINK
AREA = b"AREA:TEST\r"
ID = AREA + b"\x01MSGID: 1:10/2 00000001\r"


def filled(piece, size, front=b""):
    """Bytes of about a size: one piece again and again."""
    return front + piece * ((size - len(front)) // len(piece))


def four_texts(make, size):
    """A packet of four messages with different subjects. Their texts have a quarter of the size each."""
    text = make(size // 4 - 200)
    return making.packet(UPLINK, OWN, [making.packed(UPLINK, OWN, text, subject=subject) for subject in (b"1", b"2", b"3", b"4")])


def descending(lead, size):
    """A line of entries that descend."""
    count = size // 6
    nets = [b" %d/65535" % net + b"".join(b" %d" % node for node in range(65534, max(9999, 65534 - count), -1))
            for net in range(65535, 65535 - count // 55535 - 1, -1)]
    return (lead + b"".join(nets))[:size]


def ascending(lead, size):
    """A line of entries that ascend."""
    count = size // 6
    nets = [b" %d/10000" % (10000 + net) + b"".join(b" %d" % node for node in range(10001, min(65535, 10001 + count)))
            for net in range(count // 55535 + 1)]
    return (lead + b"".join(nets))[:size]


TEXTS = {
    "one line": lambda size: filled(b"x", size, AREA),
    "line ends": lambda size: filled(b"\r", size, AREA),
    "line feeds": lambda size: filled(b"\n", size, AREA),
    "blanks": lambda size: filled(b" ", size, AREA),
    "commas": lambda size: filled(b",", size, AREA),
    "a long tag": lambda size: filled(b"T", size, b"AREA:"),
    "blanks before a tag": lambda size: filled(b" ", size, b"AREA:") + b"T",
    "line feeds before AREA": lambda size: filled(b"\n", size) + b"AREA:TEST\r",
    "lines of a byte": lambda size: filled(b"x\r", size, AREA),
    "control lines": lambda size: filled(b"\x01\r", size, AREA),
    "empty ids": lambda size: filled(b"\x01MSGID:\r", size, AREA),
    "ids": lambda size: filled(b"\x01MSGID: 1:10/2 00000001\r", size, AREA),
    "a long id": lambda size: filled(b"x", size, AREA + b"\x01MSGID: "),
    "tear lines": lambda size: filled(b"--- x\r", size, AREA),
    "descending SEEN-BY": lambda size: descending(ID + b"SEEN-BY:", size),
    "ascending SEEN-BY": lambda size: ascending(ID + b"SEEN-BY:", size),
    "one entry of SEEN-BY": lambda size: filled(b" 10/1", size, ID + b"SEEN-BY:"),
    "SEEN-BY lines": lambda size: filled(b"SEEN-BY: 10/1\r", size, ID),
    "SEEN-BY without an entry": lambda size: filled(b" /", size, ID + b"SEEN-BY:"),
    "a long number": lambda size: filled(b"9", size, ID + b"SEEN-BY: 10/1 "),
    "slashes": lambda size: filled(b"/", size, ID + b"SEEN-BY: "),
    "PATH": lambda size: descending(ID + b"\x01PATH:", size),
    "tail in the body": lambda size: filled(b"SEEN-BY: 10/1\r\r", size, ID) + b"x\r",
}


def tiny_packet(text_of, size):
    """A packet of messages as small as possible."""
    each = len(making.packed(UPLINK, OWN, text_of(10**6), b"", b"", b""))
    return making.packet(UPLINK, OWN, [
        making.packed(UPLINK, OWN, text_of(number), b"", b"", b"") for number in range(10**6, 10**6 + size // each)])


PACKETS = {
    "messages without a text": lambda size: filled(making.packed(UPLINK, OWN, b"", b"", b"", b""), size,
                                                   making.header(UPLINK, OWN)) + b"\0\0",
    "tiny messages": lambda size: tiny_packet(lambda number: AREA + b"%d" % number, size),
    "tiny messages with ids": lambda size: tiny_packet(lambda number: AREA + b"\x01MSGID: a %08x\r" % number, size),
    "one message again": lambda size: filled(making.packed(UPLINK, OWN, ID, b"", b"", b""), size,
                                             making.header(UPLINK, OWN)) + b"\0\0",
    "an area each": lambda size: tiny_packet(lambda number: b"AREA:T%d\r" % number, size),
    "a text without an end": lambda size: filled(b"x", size, making.packet(UPLINK, OWN, [making.packed(UPLINK, OWN, AREA)])[:-3]),
    "a name without an end": lambda size: filled(b"x", size, making.header(UPLINK, OWN) + b"\2\0" + bytes(12) + making.DATE),
    "all zeros": lambda size: filled(b"\0", size, making.header(UPLINK, OWN) + b"\2\0" + bytes(12) + making.DATE),
}


def tiny_base(message_of, size, version=2, scanned=False):
    """A base of small messages."""
    each = len(message_of(10**6))
    messages = [message_of(number) for number in range(10**6, 10**6 + size // each)]
    return making.base(len(messages) if scanned else 0, messages, version)


def small_stored(tag, number, first=1):
    """A small message of a base."""
    body = making.text(tag, [b"\x01MSGID: a %08x" % number, b"x"], [], [])
    return making.stored(first, UPLINK, making.whole_body(body), b"", b"", b"")


def false_length(size):
    """A base whose first text claims four gigabytes."""
    front = making.base(0, [b"", b""]) + making.stored(1, UPLINK, b"\xff\xff\xff\xff" + AREA)
    return filled(b"x\r", size, front)


BASES = {
    "one line": lambda size: making.base(0, [making.stored(1, UPLINK, making.whole_body(filled(b"x", size, AREA) + b"\r"))]),
    "line ends": lambda size: making.base(0, [making.stored(1, UPLINK, making.whole_body(filled(b"\r", size, AREA) + b"x\r"))]),
    "lines of a byte": lambda size: making.base(0, [making.stored(1, UPLINK, making.whole_body(filled(b"x\r", size, AREA)))]),
    "tiny messages": lambda size: tiny_base(lambda number: small_stored(b"TEST", number), size),
    "tiny messages of version 1": lambda size: tiny_base(lambda number: small_stored(b"TEST", number), size, 1),
    "tiny messages, scanned": lambda size: tiny_base(lambda number: small_stored(b"TEST", number), size, 2, True),
    "an area each": lambda size: tiny_base(lambda number: small_stored(b"T%d" % number, number), size),
    "purged messages": lambda size: tiny_base(
        lambda number: making.stored(3, UPLINK, making.purged_body(b"TEST", b"a %08x" % number), b"", b"", b""), size, 2, True),
    "a false length": false_length,
    "a false number": lambda size: filled(small_stored(b"TEST", 1), size, b"ECHOBAS2" + struct.pack("<II", 0, 2**32 - 1)),
    "all zeros": lambda size: filled(b"\0", size, b"ECHOBAS2" + struct.pack("<II", 0, 2**32 - 1)),
}

ZONE = b"Zone,1,a,b,c,-,300\r\n"
NODELISTS = {
    "one note": lambda size: filled(b"x", size, b";"),
    "one line": lambda size: filled(b"x", size, ZONE),
    "line ends": lambda size: filled(b"\n", size),
    "double line ends": lambda size: filled(b"\r\n", size),
    "line feeds turned": lambda size: filled(b"\n\r", size),
    "blanks": lambda size: filled(b" ", size),
    "commas": lambda size: filled(b",", size),
    "commas after an entry": lambda size: filled(b",", size, ZONE + b",1,a,b,c,-,300"),
    "tiny entries": lambda size: filled(b",1,,,,,\n", size, ZONE),
    "hubs": lambda size: filled(b"Hub,1,,,,,\n", size, ZONE),
    "zones": lambda size: filled(b"Zone,1,,,,,\n", size),
    "a long number": lambda size: filled(b"0", size, ZONE + b","),
    "a long name": lambda size: filled(b"\xff", size, ZONE + b",1,") + b",,,,",
    "notes": lambda size: filled(b";\n", size),
    "a checksum": lambda size: filled(b",1,,,,,\n", size, b";A : 00001\r\n" + ZONE),
    "all ends": lambda size: filled(b"\x1a", size),
}

SYSTEM = b"SYSTEM 1:10/1\n"
LINKS = {
    "one note": lambda size: filled(b"x", size, SYSTEM + b"AREA TEST\n;"),
    "one word": lambda size: filled(b"x", size, SYSTEM),
    "line ends": lambda size: filled(b"\n", size, SYSTEM + b"AREA TEST\n"),
    "blanks": lambda size: filled(b" ", size, SYSTEM + b"AREA TEST\n"),
    "blanks after a name": lambda size: filled(b" ", size, SYSTEM + b"AREA TEST\nNAME x"),
    "commas": lambda size: filled(b",", size, SYSTEM),
    "areas": lambda size: SYSTEM + b"AREA TEST\n" + b"".join(b"AREA %x\n" % number for number in range(size // 11)),
    "one area again": lambda size: filled(b"AREA TEST\n", size, SYSTEM),
    "ascending links": lambda size: SYSTEM + b"AREA TEST" + b"".join(
        b" 1:%d/%d" % (1000 + number // 10000, 10000 + number % 10000) for number in range(size // 13)),
    "descending links": lambda size: SYSTEM + b"AREA TEST" + b"".join(
        b" 1:%d/%d" % (1000 + number // 10000, 10000 + number % 10000) for number in range(size // 13, 0, -1)),
    "one link again": lambda size: filled(b" 1:10/2", size, SYSTEM + b"AREA TEST"),
    "a long number": lambda size: filled(b"0", size, b"SYSTEM 1:10/"),
}

SCRIPTS = {
    "one note": lambda size: filled(b"x", size, b";"),
    "line ends": lambda size: filled(b"\n", size),
    "blanks": lambda size: filled(b" ", size),
    "a long body": lambda size: filled(b"x", size, b"POST 0 TEST 00000001 "),
    "a long number": lambda size: filled(b"1", size, b"SCAN "),
    "scans": lambda size: filled(b"SCAN 0\n", size),
    "purges of nothing": lambda size: filled(b"PURGE 0\n", size),
    "deliveries of nothing": lambda size: filled(b"DELIVER 0\n", size),
    "postings": lambda size: b"".join(b"POST 0 TEST %08x x\n" % number for number in range(size // 23)),
    "postings and scans": lambda size: b"".join(
        b"POST 0 TEST %08x x\nSCAN 0\n" % number for number in range(size // 30)),
    "postings, scans and deliveries": lambda size: b"".join(
        b"POST 0 TEST %08x x\nSCAN 0\nDELIVER %d\n" % (number, number) for number in range(size // 44)),
    "one posting again": lambda size: filled(b"POST 0 TEST 00000001 x\n", size),
    "one delivery again": lambda size: filled(b"DELIVER 0\n", size, b"POST 0 TEST 00000001 x\nSCAN 0\n"),
}

BODIES = {
    "one line": lambda size: filled(b"x", size),
    "line ends": lambda size: filled(b"\n", size),
    "double line ends": lambda size: filled(b"\r\n", size),
    "returns": lambda size: filled(b"\r", size),
    "control lines": lambda size: filled(b"\x01\n", size),
}
