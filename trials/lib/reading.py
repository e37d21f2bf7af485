"""Reads packets, texts and bases by docs/FORMATS.md, to compare the output of the program.

It shares no code with the program. It is slow and plain: each rule is written as in the document.
"""
import struct
from typing import NamedTuple

from lib import making

BLANKS = b" \t\n"
MOST_SHOWN = 16_777_216


class Fault(Exception):
    """A fault, as the fault line prints it."""


class Message(NamedTuple):
    """A packed message: its place, date, names, subject and text."""
    place: int
    date: bytes
    to: bytes
    by: bytes
    subject: bytes
    text: bytes


class Echo(NamedTuple):
    """What a text says."""
    tag: bytes
    kept: list
    seen: set
    path: list
    dropped: int


def string_end(content, at, most, too_long):
    """The place of the 00 of a string that begins at a place."""
    end = content.find(b"\0", at, at + most + 1)
    if end >= 0:
        return end
    raise Fault("%s at %d" % (too_long if len(content) - at > most else "P1 Truncated", at))


def fixed(content, at, size):
    """A field of a fixed size."""
    if len(content) < at + size:
        raise Fault("P1 Truncated at %d" % at)
    return content[at:at + size]


def read_header(content):
    """The origin and the destination of a packet."""
    front = fixed(content, 0, 58)
    if front[18:20] != b"\2\0":
        raise Fault("P2 NotType2 at 18")
    numbers = struct.unpack("<12H", front[:24])
    zones = struct.unpack("<2H", front[34:38])
    return (zones[0], numbers[10], numbers[0]), (zones[1], numbers[11], numbers[1])


def read_message(content, at, most_text):
    """The message at a place and the place after it, or None if the packet ends."""
    number, = struct.unpack("<H", fixed(content, at, 2))
    if number == 0:
        return None
    if number != 2:
        raise Fault("P3 NotMessage at %d" % at)
    fixed(content, at + 2, 12)
    date, place, strings = fixed(content, at + 14, 20), at + 34, []
    for most, fault in ((35, "P4 FieldTooLong"), (35, "P4 FieldTooLong"), (71, "P4 FieldTooLong"),
                        (most_text, "P5 TextTooLong")):
        end = string_end(content, place, most, fault)
        strings.append(content[place:end])
        place = end + 1
    return Message(at, date, *strings), place


def read_packet(content, most_text):
    """The messages of a packet before its fault, the fault or None, and how many bytes it has."""
    at, messages = 58, []
    try:
        read_header(content)
        while True:
            found = read_message(content, at, most_text)
            if found is None:
                return messages, None, at + 2
            messages.append(found[0])
            at = found[1]
    except Fault as fault:
        return messages, str(fault), at


def lines_of(text):
    """The pieces between 0D bytes, without an empty last piece."""
    lines = text.split(b"\r")
    return lines[:-1] if lines[-1] == b"" else lines


def is_kind(line, begin):
    """Whether a line begins so, after its line feeds."""
    return line.lstrip(b"\n").startswith(begin)


def is_of_tail(line):
    """Whether a line may be in the control tail."""
    return is_kind(line, b"SEEN-BY:") or is_kind(line, b"\x01") or not line.strip(BLANKS)


def number_of(word):
    """The value of decimal digits up to 65,535, or None."""
    if not word or not all(0x30 <= byte <= 0x39 for byte in word):
        return None
    value = int(word)
    return value if value <= 65535 else None


def read_list(content):
    """The entries of a SEEN-BY or PATH line, and how many tokens are not entries."""
    entries, dropped, net = [], 0, None
    for token in content.replace(b"\t", b" ").replace(b"\n", b" ").split(b" "):
        if token == b"":
            continue
        parts = token.split(b"/")
        values = [number_of(part) for part in parts]
        if len(values) == 2 and None not in values:
            net = values[0]
            entries.append((net, values[1]))
        elif len(values) == 1 and values[0] is not None and net is not None:
            entries.append((net, values[0]))
        else:
            dropped += 1
    return entries, dropped


def is_tag(tag):
    """Whether these bytes are a tag."""
    return 1 <= len(tag) <= 60 and all(0x21 <= byte <= 0x7E for byte in tag)


def read_text(text):
    """What a text says, or the word for a text that says nothing."""
    lines = lines_of(text)
    if not lines or not is_kind(lines[0], b"AREA:"):
        return "not echomail"
    tag = lines[0].lstrip(b"\n")[5:].strip(BLANKS).upper()
    if not is_tag(tag):
        return "bad tag"
    begin = len(lines)
    while begin > 1 and is_of_tail(lines[begin - 1]):
        begin -= 1
    tail, lists, dropped = lines[begin:], {b"SEEN-BY:": [], b"\x01PATH:": []}, 0
    for line in tail:
        for lead, entries in lists.items():
            if is_kind(line, lead):
                found, wrong = read_list(line.lstrip(b"\n")[len(lead):])
                entries += found
                dropped += wrong
    kept = lines[1:begin] + [line for line in tail if is_kind(line, b"\x01") and not is_kind(line, b"\x01PATH:")]
    return Echo(tag, kept, set(lists[b"SEEN-BY:"]), lists[b"\x01PATH:"], dropped)


def first_id(kept, lead=b"\x01MSGID:"):
    """The id of the first line with this lead that has one."""
    for line in kept:
        if is_kind(line, lead):
            found = line.lstrip(b"\n")[len(lead):].strip(BLANKS)
            if found:
                return found
    return None


def key_of(echo, names):
    """The key of a message."""
    found = first_id(echo.kept)
    return (echo.tag, found) if found is not None else (echo.tag, names, tuple(echo.kept))


def written(echo):
    """The text of a message."""
    return making.text(echo.tag, echo.kept, sorted(echo.seen), echo.path)


def address_in(word):
    """The address in a word, or none."""
    zone, _, rest = word.partition(b":")
    net, _, node = rest.partition(b"/")
    if word.count(b":") != 1 or word.count(b"/") != 1 or not all(part.isdigit() for part in (zone, net, node)):
        return None
    found = int(zone), int(net), int(node)
    return found if all(least <= part <= 32_767 for part, least in zip(found, (1, 1, 0))) else None


def link_lines(content):
    """The lines of a link file, numbered, without those that are skipped."""
    lines = content.split(b"\n")
    ended = [line[:-1] if line.endswith(b"\r") else line for line in lines[:-1]]
    for number, line in enumerate(ended + lines[-1:], 1):
        if line.strip(b" \t") and not line.startswith(b";"):
            yield number, line


def line_fault(line, words, earlier):
    """Why a line of a link file is refused, after these lines before it."""
    same = [others for others in earlier if others[0] == words[0]]
    if any(byte < 0x20 and byte != 9 for byte in line) or words[0] not in (b"SYSTEM", b"NAME", b"AREA"):
        return "L1 UnknownWord"
    if words[0] != b"AREA" and same:
        return "L4 RepeatedSystem"
    if words[0] == b"SYSTEM":
        return None if len(words) == 2 and address_in(words[1]) else "L2 BadAddress"
    if words[0] == b"NAME":
        return "L8 NameTooLong" if len(line.strip(b" \t")[4:].strip(b" \t")) > 40 else None
    if len(words) < 2 or not is_tag(words[1]):
        return "L7 BadTag"
    if any(others[1].upper() == words[1].upper() for others in same):
        return "L5 RepeatedArea"
    links = [address_in(word) for word in words[2:]]
    for number, link in enumerate(links):
        if link is None:
            return "L2 BadAddress"
        if link in links[:number]:
            return "L6 RepeatedLink"
    return None


def wrong_word(fault, line, words):
    """The word in a line of a link file that a fault names."""
    if fault.startswith("L1"):
        return next((word for word in words if any(byte < 0x20 for byte in word)), words[0])
    if fault.startswith("L4"):
        return words[0]
    if fault.startswith("L8"):
        return line.strip(b" \t")[4:].strip(b" \t")
    if fault.startswith(("L5", "L7")):
        return words[1] if len(words) > 1 else b""
    if words[0] == b"SYSTEM":
        return next((word for word in words[1:2] if not address_in(word)), words[2] if len(words) > 2 else b"")
    links = [address_in(word) for word in words[2:]]
    return words[2 + next(at for at, link in enumerate(links) if link is None or link in links[:at])]


def judge_links(content):
    """The good lines of a link file, as words, and its faults: the line, the fault, and the wrong word."""
    lines, faults = [], []
    for number, line in link_lines(content):
        words = [word for word in line.replace(b"\t", b" ").split(b" ") if word]
        fault = line_fault(line, words, lines)
        if fault:
            faults.append((number, fault, wrong_word(fault, line, words)))
        else:
            lines.append(words)
    if not faults and not any(words[0] == b"SYSTEM" for words in lines):
        faults.append((0, "L3 NoSystem", b""))
    return lines, faults


def read_links(content):
    """The own address and the areas of a link file, or its first fault."""
    lines, faults = judge_links(content)
    if faults:
        raise Fault("%s line %d" % (faults[0][1], faults[0][0]))
    system = next(words[1] for words in lines if words[0] == b"SYSTEM")
    areas = {words[1].upper(): [address_in(word) for word in words[2:]] for words in lines if words[0] == b"AREA"}
    return address_in(system), areas


class Record:
    """The fields of a message of a base, one after another."""

    def __init__(self, content, at, number):
        self.content, self.at, self.number = content, at, number

    def take(self, size):
        """So many more bytes."""
        if len(self.content) < self.at + size:
            raise Fault("F2 Truncated record %d" % self.number)
        self.at += size
        return self.content[self.at - size:self.at]

    def take_counted(self, size):
        """Bytes after their length, which has so many bytes."""
        return self.take(int.from_bytes(self.take(size), "little"))


def read_record(record, version, scanned, keys):
    """Judges one message of a base, and keeps its key."""
    first, sender, date = record.take(1)[0], record.take(6), record.take(20)
    names = (date, *(record.take_counted(1) for _ in range(3)))
    is_short = version == 2 and first in (2, 3)
    tag = record.take_counted(1) if is_short else b""
    body = record.take_counted(4)
    damaged = Fault("F3 Damaged record %d" % record.number)
    if first > (1 if version == 1 else 3) or first in (0, 2) and any(sender):
        raise damaged
    if any(len(name) > most or b"\0" in name for name, most in zip(names[1:], (35, 35, 71))):
        raise damaged
    if is_short:
        right = is_tag(tag) and tag == tag.upper() and body and body == body.strip(BLANKS)
        key = (tag, body)
        right = right and scanned and b"\0" not in body and b"\r" not in body
    else:
        echo = read_text(body)
        if isinstance(echo, str) or b"\0" in body or written(echo) != body:
            raise damaged
        key, found = key_of(echo, names), first_id(echo.kept)
        is_stub = found is not None and echo.kept == [b"\x01MSGID: " + found] and not echo.seen and not echo.path
        right = not (version == 2 and scanned and is_stub)
    if not right or key in keys:
        raise damaged
    keys.add(key)


def read_base(content):
    """The size of a base and its keys, or its fault."""
    versions = {b"ECHOBAS1": 1, b"ECHOBAS2": 2}
    if not any(name.startswith(content[:8]) for name in versions):
        raise Fault("F1 NotBase")
    if len(content) < 16:
        raise Fault("F2 Truncated record 0")
    cursor, count = struct.unpack_from("<II", content, 8)
    if cursor > count:
        raise Fault("F1 NotBase")
    at, keys = 16, set()
    for number in range(count):
        record = Record(content, at, number)
        read_record(record, versions[content[:8]], number < cursor, keys)
        at = record.at
    return at, keys
