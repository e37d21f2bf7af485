"""Reads echomail texts (FTS-0004) as `echonet show` does: their lines, the control tail, the id and PATH."""
import datetime
import functools
import re
from typing import Iterable, NamedTuple, Optional

from . import jam

BLANKS = b" \t\n"
AREA, SEEN_BY, PATH, MSGID, CHARSET = b"AREA:", b"SEEN-BY:", b"\x01PATH:", b"\x01MSGID:", b"\x01CHRS:"
# Control lines of JAM by their subfields: those before the text, and those after it.
FRONT = {jam.MSGID: b"\x01MSGID: ", jam.REPLY: b"\x01REPLY: ", jam.PID: b"\x01PID: ", jam.KLUDGE: b"\x01",
         jam.FLAGS: b"\x01FLAGS: ", jam.TZUTC: b"\x01TZUTC: "}
BEHIND = {jam.SEEN_BY: b"SEEN-BY: ", jam.PATH: b"\x01PATH: "}
TAG = re.compile(rb"[!-~]{1,60}")
# Blanks that do not separate entries.
OTHER_BLANK = re.compile(rb"[\r\x0b\x0c]")
MOST = 65535
CACHED = 65536
MONTHS = (b"jan", b"feb", b"mar", b"apr", b"may", b"jun", b"jul", b"aug", b"sep", b"oct", b"nov", b"dec")
# The form of FTS-0001, and that of SEAdog with a day of the week and without seconds.
DATE = re.compile(rb"(?:[A-Za-z]{3} +)?([0-9]{1,2})[^0-9A-Za-z]+([A-Za-z]{3})[^0-9A-Za-z]+([0-9]{2})[^0-9A-Za-z]+"
                  rb"([0-9]{1,2})[^0-9A-Za-z]([0-9]{2})(?:[^0-9A-Za-z]([0-9]{2}))?")
CODECS = {b"ASCII": "ascii", b"CP437": "cp437", b"IBMPC": "cp437", b"CP850": "cp850", b"CP866": "cp866", b"+7_FIDO": "cp866",
          b"CP1251": "cp1251", b"KOI8-R": "koi8_r", b"LATIN-1": "latin_1", b"UTF-8": "utf_8"}


class Text(NamedTuple):
    """The parts of a text: the lines before its control tail, the tail, and whether an AREA line was in front."""
    area: Optional[bytes]
    lines: list[bytes]
    tail: list[bytes]


def lines_of(text: bytes) -> list[bytes]:
    """The pieces between 0D, without an empty last piece."""
    lines = text.split(b"\r")
    if not lines[-1]:
        lines.pop()
    return lines


def is_of_tail(line: bytes) -> bool:
    """Whether the control tail may have the line."""
    if line[:1] == b"\n":
        line = line.lstrip(b"\n")
    return line[:1] == b"\x01" or line.startswith(SEEN_BY) or not line.strip(BLANKS)


def after(word: bytes, line: bytes) -> Optional[bytes]:
    """What follows the word at the front of a line."""
    line = line.lstrip(b"\n")
    return line[len(word):] if line.startswith(word) else None


def read(lines: list[bytes]) -> Text:
    """The parts of a text of these lines."""
    area = after(AREA, lines[0]) if lines else None
    first, begin = int(area is not None), len(lines)
    while begin > first and is_of_tail(lines[begin - 1]):
        begin -= 1
    return Text(area, lines[first:begin], lines[begin:])


def tag_of(area: bytes) -> Optional[bytes]:
    """The tag of an AREA line, in capitals. None for a tag that is not allowed."""
    tag = area.strip(BLANKS).upper()
    return tag if TAG.fullmatch(tag) else None


def first_id(lines: Iterable[bytes]) -> Optional[bytes]:
    """The id of a message: that of the first MSGID line with more than blanks."""
    for line in lines:
        if MSGID in line:
            found = (after(MSGID, line) or b"").strip(BLANKS)
            if found:
                return found
    return None


def number_in(word: bytes) -> int:
    """The number that a word is, at most 65,535; -1 for any other word."""
    return int(word) if word.isdigit() and len(word.lstrip(b"0")) <= 5 and int(word) <= MOST else -1


@functools.lru_cache(maxsize=CACHED)
def numbers_of(token: bytes) -> tuple[int, int]:
    """Net and node of an entry; net -1 for a node alone, and node -1 for a token that is no entry."""
    net, slash, node = token.partition(b"/")
    if not slash:
        return -1, number_in(net)
    return (number_in(net), number_in(node)) if number_in(net) >= 0 else (-1, -1)


def entries_of(line: bytes) -> list[tuple[int, int]]:
    """The entries of a PATH line, nets and nodes. A node alone takes the net before it in the line."""
    entries, nearest = [], -1
    for token in (OTHER_BLANK.sub(b"?", line) if OTHER_BLANK.search(line) else line).split():
        net, node = numbers_of(token)
        if node >= 0:
            if net >= 0:
                nearest = net
            if nearest >= 0:
                entries.append((nearest, node))
    return entries


def path_of(tail: Iterable[bytes]) -> bytes:
    """The PATH lines of a control tail, without their words, with 0D between them."""
    return b"\r".join(found for found in (after(PATH, line) for line in tail) if found is not None)


def codec_of(lines: Iterable[bytes]) -> str:
    """The codec of a message, by its first CHRS line."""
    for line in lines:
        label = after(CHARSET, line)
        if label is not None:
            return CODECS.get((label.split() or [b""])[0].upper(), "latin_1")
    return "cp437"


def moment_of(date: bytes) -> Optional[str]:
    """A DateTime as `YYYY-MM-DD hh:mm:ss`. None for one that cannot be read."""
    found = DATE.match(date)
    month = found[2].lower() if found else b""
    if not found or month not in MONTHS:
        return None
    year = int(found[3]) + (1900 if int(found[3]) >= 80 else 2000)
    hour, minute, second = int(found[4]), int(found[5]), int(found[6] or 0)
    try:
        return str(datetime.datetime(year, MONTHS.index(month) + 1, int(found[1]), hour, minute, second))
    except ValueError:
        return None


def text_of_jam(message: jam.Message) -> bytes:
    """The text of a message of a JAM base, with its control lines in front of it and behind it."""
    front = b"".join(FRONT[kind] + content + b"\r" for kind, content in message.fields if kind in FRONT)
    behind = [(kind, BEHIND[kind] + content + b"\r") for kind, content in message.fields if kind in BEHIND]
    body = message.text.replace(b"\0", b"")
    if body and not body.rstrip(b"\n").endswith(b"\r"):
        body += b"\r"
    ordered = sorted(behind, key=lambda found: found[0] == jam.PATH)
    return (front + body + b"".join(line for _, line in ordered)).replace(b"\0", b"")
