"""Small hostile inputs, each made from seeded random choices.

Half of them follow the formats of docs/FORMATS.md with odd parts in them, so that they get far into the program. The
other half is damaged: bytes are changed, and pieces are cut out, doubled or inserted from elsewhere.
"""
import struct

from lib import making

OWN, UPLINK = making.OWN, making.UPLINK
ODD_BYTES = [0x00, 0x01, 0x09, 0x0A, 0x0D, 0x1A, 0x20, 0x22, 0x2C, 0x2D, 0x2F, 0x3A, 0x5C, 0x7F, 0x80, 0x8D, 0xFF]
PIECES = [
    b"AREA:", b"AREA:TEST\r", b"SEEN-BY:", b"SEEN-BY: 10/1 2\r", b"\x01PATH: 10/1\r", b"\x01MSGID: ",
    b"\x01MSGID: 1:10/2 0000000a\r", b"\x01REPLY: \"a b\"\"c\" FFFFFFFF\r", b"--- \r", b"---\r",
    b" * Origin: a (1:10/2)\r", b"\r", b"\r\r", b"\n", b"\r\n", b" \t \r", b"\0", b"\0\0", b"\x02\0",
    b"\xff\xff", b"\xff\xff\xff\xff", b"ECHOBAS1", b"ECHOBAS2", b"SYSTEM 1:10/1\n", b"NAME x\n", b"AREA TEST 1:10/2\n",
    b"Zone,1,a,b,c,-,9600\r\n", b"Hub,1,a,b,c,-,300,\r\n", b",1,a,b,c,-,300\r\n", b";A : 00001\r\n",
    b"\x1a", b"SCAN 0\n", b"DELIVER 0\n", b"PURGE 0\n", b"POST 0 TEST 00000001 x\n", b" 65535/65535", b"99999999999"]
TAGS = [b"TEST", b"test", b"OTHER", b"NONE", b"", b" ", b"A" * 60, b"B" * 61, b"a\x80b", b"T ", b"!~"]


def some(chance, most):
    """A small number, mostly far below the most."""
    return int(most * chance.random() ** 3)


def odd_bytes(chance, most=40):
    """Bytes without 00, odd ones among them."""
    return bytes(chance.choice(ODD_BYTES[1:] + [0x41, 0x62, 0x30]) for _ in range(some(chance, most)))


def plain_bytes(chance, most=40):
    """Bytes that lines may hold."""
    return bytes(chance.choice(b"abcXYZ019 /:.-\x8d\xe4") for _ in range(some(chance, most)))


def entry(chance):
    """A token of a SEEN-BY or PATH line, mostly a valid entry."""
    net, node = chance.choice([0, 10, 10, 20, 65535, 65536, 7]), chance.choice([0, 1, 2, 3, 4, 65535, 99999])
    return chance.choice([
        b" %d/%d" % (net, node), b" %d" % node, b" %d/%d" % (net, node), b" /%d" % node, b" %d/" % net,
        b" " + odd_bytes(chance, 6).replace(b"\r", b""), b"\t%d" % node, b"  %05d/%d" % (net, node)])


def message_id(chance):
    """The text after MSGID: and REPLY:, mostly an id."""
    serial = b"%08x" % chance.choice([0, 1, chance.getrandbits(32), chance.getrandbits(4)])
    origin = chance.choice([b"1:10/2", b"1:10/1", b"2:20/3.4@net", b'"a ""b"" c"', b'"', b"x"])
    return chance.choice([
        b" " + origin + b" " + serial, b" " + origin + b"  " + serial.upper() + b" ", b"",
        b" " + odd_bytes(chance, 20).replace(b"\r", b""), b" " + serial, b"\t" + origin + b"\t" + serial])


def text_line(chance):
    """A line of a text, of any kind."""
    return chance.choice([
        lambda: plain_bytes(chance, 80), lambda: plain_bytes(chance, 80), lambda: odd_bytes(chance),
        lambda: b"\x01MSGID:" + message_id(chance), lambda: b"\x01MSGID:" + message_id(chance),
        lambda: b"\x01REPLY:" + message_id(chance), lambda: b"--- " + plain_bytes(chance), lambda: b"---",
        lambda: b" * Origin: " + plain_bytes(chance) + b" (1:10/2)", lambda: b"",
        lambda: b"\n" * some(chance, 4) + chance.choice(PIECES).replace(b"\r", b""),
        lambda: b"SEEN-BY:" + b"".join(entry(chance) for _ in range(some(chance, 30))),
        lambda: b"\x01PATH:" + b"".join(entry(chance) for _ in range(some(chance, 30))),
        lambda: b"\x01" + plain_bytes(chance)])()


def text(chance, tag=None):
    """A text, mostly one of a known area."""
    if tag is None:
        tag = chance.choice(TAGS[:1] * 12 + TAGS)
    first = chance.choice([b"AREA:"] * 9 + [b"\nAREA: ", b"AREA", b"\x01AREA:"]) + tag
    lines = [first] + [text_line(chance) for _ in range(some(chance, 12))]
    if chance.random() < 0.7:
        lines += [b"SEEN-BY:" + b"".join(entry(chance) for _ in range(some(chance, 12))), b"\x01PATH: 10/2"]
    return (b"\r".join(lines) + chance.choice([b"\r", b"", b"\r\r", b"\r\n"])).replace(b"\0", b"")


def packed(chance):
    """A packed message."""
    number = chance.choice([0, 1, 2, 3, 40000, 65535])
    return making.packed(
        UPLINK, (1, 10, number), text(chance), to=odd_bytes(chance, 36)[:35], by=plain_bytes(chance, 36)[:35],
        subject=plain_bytes(chance, 72)[:71], date=bytes(chance.choice(ODD_BYTES) for _ in range(20)))


def packet(chance, real):
    """A packet: a really written one, or one of this maker."""
    if chance.random() < 0.25:
        content = chance.choice(real)
        if chance.random() < 0.7:
            content = making.header(UPLINK, OWN) + spoiled(chance, content[58:])
        return content if chance.random() < 0.1 else spoiled(chance, content)
    origin = chance.choice([UPLINK] * 20 + [(0, 10, 2), (1, 10, 9), (2, 10, 2)])
    destination = chance.choice([OWN] * 30 + [(0, 10, 1), (1, 10, 3)])
    content = making.header(origin, destination, chance.choice([2] * 30 + [0, 512]))
    content += b"".join(packed(chance) for _ in range(1 + some(chance, 6))) + chance.choice([b"\0\0"] * 9 + [b"", b"\0"])
    if chance.random() < 0.3:
        return content[:58] + spoiled(chance, content[58:])
    return spoiled(chance, content) if chance.random() < 0.1 else content


def spoiled(chance, content):
    """The same with some parts changed."""
    content = bytearray(content)
    for _ in range(1 + some(chance, 8)):
        at, length = chance.randrange(len(content) + 1), some(chance, 40)
        how = chance.randrange(7)
        if how == 0:
            content[at:at + 1] = bytes([chance.choice(ODD_BYTES)])
        elif how == 1:
            content[at:at + 1] = bytes([chance.randrange(256)])
        elif how == 2:
            del content[at:at + length]
        elif how == 3:
            content[at:at] = content[at:at + length]
        elif how == 4:
            content[at:at] = chance.choice(PIECES)
        elif how == 5:
            content[at:at + 4] = struct.pack("<I", chance.choice([0, 1, 255, 2**31, 2**32 - 1, len(content)]))
        elif chance.random() < 0.3:
            del content[at:]
    return bytes(content)


def echo_parts(chance, serial):
    """Tag, kept lines, SEEN-BY and PATH that a base may hold."""
    kept = [b"\x01MSGID: " + chance.choice([b"1:10/2 %08x" % serial, b"strange %d" % serial])]
    if chance.random() < 0.3:
        kept = []
    kept += [b"line %d" % serial] + [plain_bytes(chance, 90) for _ in range(some(chance, 8))] + [b"--- x"]
    seen = sorted({(chance.choice([10, 20, 65535]), chance.randrange(99)) for _ in range(some(chance, 60))})
    path = [(chance.choice([10, 20]), chance.randrange(9)) for _ in range(some(chance, 20))]
    return chance.choice([b"TEST", b"OTHER", b"NONE"]), kept, seen, path


def stored(chance, serial, version, scanned):
    """A valid message of a base."""
    tag, kept, seen, path = echo_parts(chance, serial)
    names = {"to": plain_bytes(chance, 36)[:35], "by": plain_bytes(chance, 36)[:35],
             "subject": plain_bytes(chance, 72)[:71], "date": bytes(chance.choice(ODD_BYTES) for _ in range(20))}
    first, sender = chance.choice([(0, (0, 0, 0)), (1, UPLINK), (1, (1, 10, 3))])
    has_id = kept[0].startswith(b"\x01MSGID: ")
    if version == 2 and scanned and has_id and chance.random() < 0.5:
        return making.stored(first + 2, sender, making.purged_body(tag, kept[0][8:]), **names)
    return making.stored(first, sender, making.whole_body(making.text(tag, kept, seen, path)), **names)


def base(chance):
    """A base of either version."""
    count, version = some(chance, 12), chance.choice([1, 2, 2])
    cursor = some(chance, count + 1) if chance.random() < 0.9 else count
    messages = [stored(chance, serial, version, serial < cursor) for serial in range(count)]
    content = making.base(cursor, messages, version)
    if chance.random() < 0.1:
        content += odd_bytes(chance)
    return spoiled(chance, content) if chance.random() < 0.5 else content


def node_line(chance):
    """A line of a nodelist, mostly an entry."""
    keyword = chance.choice([b"Zone", b"Region", b"Host", b"Hub", b"Pvt", b"Hold", b"Down", b"", b"", b"hUB", b"Boss"])
    number = chance.choice([b"1", b"2", b"10", b"32767", b"007", b"0", b"32768", b"", b"x", b"4294967297"])
    if chance.random() < 0.8:
        keyword, number = chance.choice([b"Host", b"Hub", b"Pvt", b"", b"", b"Down"]), b"%d" % chance.randrange(1, 20)
    fields = [keyword, number, plain_bytes(chance), b"Place", plain_bytes(chance, 20), b"-Unpublished-", b"9600", b"CM,XA"]
    return chance.choice([
        lambda: b",".join(fields), lambda: b",".join(fields), lambda: b",".join(fields), lambda: b"",
        lambda: b";" + odd_bytes(chance).replace(b"\n", b""), lambda: b",".join(fields[:some(chance, 8)]),
        lambda: odd_bytes(chance)])()


def nodelist(chance):
    """A nodelist, some with a checksum stated."""
    lines = [b";A Nodelist : %05d" % chance.randrange(65536) if chance.random() < 0.4 else b";A"]
    if chance.random() < 0.9:
        lines.append(b"Zone,1,a,b,c,-Unpublished-,9600")
    lines += [node_line(chance) for _ in range(some(chance, 20))]
    content = b"".join(line + chance.choice([b"\r\n", b"\n"]) for line in lines)
    content += chance.choice([b"", b"\x1a", b"\x1a" + odd_bytes(chance)])
    return spoiled(chance, content) if chance.random() < 0.3 else content


def link_address(chance):
    """A word that is mostly an address."""
    if chance.random() < 0.9:
        return making.shown((1, chance.choice([10, 10, 20]), chance.randrange(1, 6)))
    return chance.choice(["", ":", "1:1", "1/1:1", "0:1/1", "1:0/1", "32767:32767/32767", "32768:1/1", "1:10/32768",
                          "1:10/1.1", "01:010/001", "a:b/c", "1:10/-1", "1:10/1:1", "99999999999:1/1"])


def link_files(chance):
    """The link files of a small net, most of them tidy in the area TEST."""
    if chance.random() < 0.4:
        return [near_link_file(chance)]
    size = 1 + some(chance, 6)
    systems = [(1, 10, 1 + number) for number in range(size)]
    links = {system: set() for system in systems}
    for number in range(1, size):
        other = systems[chance.randrange(number)]
        links[systems[number]].add(other)
        links[other].add(systems[number])
    if chance.random() < 0.5:
        links[chance.choice(systems)].add(chance.choice(systems))
    files = [making.link_file(system, [("TEST", sorted(links[system]))], "Name") for system in systems]
    if chance.random() < 0.6:
        number = chance.randrange(size)
        files[number] = odd_link_file(chance, files[number])
    return files


NEAR = [
    "AREA OTHER 1:10/2 1:10/3", "AREA OTHER 1:10/2 1:010/02", "AREA other", "AREA", "AREA OTHER 1:10/2 1:10/2.1", "AREA O\tR",
    "AREA " + "Y" * 60, "AREA " + "Y" * 61, "NAME " + "n" * 40, "NAME " + "n" * 41, " NAME", "NAMED x", "area X", ";AREA X 1", " ;",
    "\t \t", "AREA X 1:10/9\r", "SYSTEM 1:10/9", "SYSTEM", "SYSTEM 1:10/9 1:10/8", "AREA X\x7f", "AREA X\x1f", " AREA\tZ  1:10/9 "]


def near_link_file(chance):
    """A link file of lines that are valid or nearly valid."""
    lines = [chance.choice(NEAR) for _ in range(some(chance, 5))]
    lines.insert(chance.randrange(len(lines) + 1), chance.choice(["SYSTEM 1:10/1"] * 9 + [""]))
    return "".join(line + chance.choice(["\n", "\r\n"]) for line in lines).encode()


def odd_link_file(chance, content):
    """A link file with odd lines in it."""
    lines = content.split(b"\n")
    for _ in range(some(chance, 6)):
        line = chance.choice([
            lambda: "AREA %s %s" % (chance.choice(["TEST", "other", "X" * 60, "X" * 61, ""]), " ".join(
                link_address(chance) for _ in range(some(chance, 8)))),
            lambda: "SYSTEM " + link_address(chance), lambda: "NAME " + "n" * some(chance, 44),
            lambda: "; note", lambda: "  ", lambda: "area x", lambda: "\tAREA\tODD\t1:10/2\t"])().encode()
        lines.insert(chance.randrange(len(lines) + 1), line)
    content = chance.choice([b"\n", b"\r\n"]).join(lines)
    return spoiled(chance, content) if chance.random() < 0.5 else content


def script(chance):
    """A script for the net of examples/nets/chain."""
    lines = []
    for number in range(some(chance, 40)):
        which = chance.choice([0, 0, 1, 2, 3, 10**9, 999999999])
        lines.append(chance.choice([
            b"POST %d TEST %08x Body %d" % (chance.randrange(3), number, number), b"SCAN %d" % chance.randrange(3),
            b"DELIVER %d" % chance.randrange(6), b"PURGE %d" % chance.randrange(3), b"DELIVER %d" % which,
            b"POST %d test 00000001 " % which, b"; note", b"\tSCAN\t1 ", b""]))
    if chance.random() < 0.2:
        lines.append(chance.choice([b"SCAN x", b"SCAN", b"POST 0 TEST 0000000A x", b"DELIVER 1234567890", odd_bytes(chance)]))
    content = b"".join(line + chance.choice([b"\n", b"\r\n"]) for line in lines)
    return spoiled(chance, content) if chance.random() < 0.2 else content


def hexadecimal(chance, real):
    """The digits of a packet, with blanks, some of them wrong."""
    digits = packet(chance, real).hex()
    digits = digits.upper() if chance.random() < 0.3 else digits
    width = 1 + some(chance, 80)
    lines = [digits[at:at + width] for at in range(0, len(digits), width)]
    content = chance.choice(["\n", "\r\n", " ", "\t"]).join(lines).encode()
    return spoiled(chance, content) if chance.random() < 0.3 else content


def posting(chance):
    """The arguments of a posting and its body."""
    serial = chance.choice(["%08x" % chance.getrandbits(32), "%08X" % chance.getrandbits(32), "1", "0000000g"])
    stamp = chance.choice([making.STAMP] * 4 + ["2026-02-31T00:00:00", "2080-01-01T00:00:00", "2026-13-01T00:00:00", "Now"])
    to, by, subject = (plain_bytes(chance, most).decode("latin-1") for most in (38, 38, 75))
    words = ["--area=" + chance.choice(["TEST", "test", "Other", "NONE", ""]), "--to=" + to, "--from=" + by,
             "--subject=" + subject, "--serial=" + serial, "--at=" + stamp]
    if chance.random() < 0.3:
        words.append("--reply=" + chance.choice(["1:10/2 00000001", "x", '"a ""b" FFFFFFFF', '"a" 1234567A', " "]))
    body = b"\n".join(text_line(chance) for _ in range(some(chance, 10)))
    return words, body + chance.choice([b"\n", b"", b"\r\n", b"\0"] + [b"\n"] * 9)
