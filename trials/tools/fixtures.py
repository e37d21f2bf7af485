"""Files for the tests of the tools, written by hand: JAM bases (JAM-001), stored messages and packets (FTS-0001), lines
of JSON. It shares no code with the tools."""
import calendar
import json
import os
import struct
import subprocess
import sys
import time
from typing import NamedTuple, Optional

HERE = os.path.dirname(os.path.abspath(__file__))
TOP = os.path.dirname(os.path.dirname(HERE))
sys.path.insert(0, os.path.dirname(HERE))
TOOLS = os.environ.get("TOOLS", os.path.join(TOP, "tools"))
PROGRAM = os.path.realpath(os.environ.get("ECHONET", os.path.join(TOP, "bin", "echonet")))
PYTHON = os.environ.get("PYTHON", sys.executable)
GONE = 0xffffffff
PATH, SEEN, MSGID, KLUDGE = 2002, 2001, 4, 2000


class Mail(NamedTuple):
    """A message: its id or None, the entries of its PATH lines, its time or None, and the lines of its body."""
    msgid: Optional[str]
    path: tuple[str, ...]
    time: Optional[str] = "2026-07-03 12:34:56"
    body: tuple[str, ...] = ("Hello",)
    seen: tuple[str, ...] = ()
    subject: str = "Hi"
    tag: str = "TEST"


def written(mail: Mail) -> int:
    """The seconds of a time since 1970."""
    return calendar.timegm(time.strptime(mail.time, "%Y-%m-%d %H:%M:%S")) if mail.time else 0


def date_time(mail: Mail) -> bytes:
    """The time as a packed message has it."""
    return time.strftime("%d %b %y  %H:%M:%S", time.gmtime(written(mail))).encode() if mail.time else b"no date"


def text(mail: Mail, area: bool = False) -> bytes:
    """The text of a message."""
    lines = ["AREA:" + mail.tag] if area else []
    lines += ["\x01MSGID: " + mail.msgid] if mail.msgid is not None else []
    lines += mail.body + tuple("SEEN-BY: " + line for line in mail.seen) + tuple("\x01PATH: " + line for line in mail.path)
    return "".join(line + "\r" for line in lines).encode("cp437")


def field(kind: int, content: bytes) -> bytes:
    """A subfield of a JAM header."""
    return struct.pack("<2HI", kind, 0, len(content)) + content


def jam_head(fields: bytes, mail: Mail, number: int, place: int, size: int, attribute: int = 0) -> bytes:
    """A header of a JAM base with its subfields."""
    numbers = (len(fields), 0, GONE, GONE, 0, 0, 0, written(mail), 0, 0, number, attribute, 0, place, size, GONE, 0)
    return struct.pack("<4s2H17I", b"JAM\0", 1, 0, *numbers) + fields


def jam_fields(mail: Mail) -> bytes:
    """The subfields of a message."""
    fields = field(2, b"Ann") + field(3, b"All") + field(6, mail.subject.encode())
    fields += field(MSGID, mail.msgid.encode()) if mail.msgid is not None else b""
    fields += b"".join(field(SEEN, line.encode()) for line in mail.seen)
    return fields + b"".join(field(PATH, line.encode()) for line in mail.path)


def jam_base(path: str, mails: list[Mail]) -> None:
    """Writes a JAM base."""
    headers, texts, index = struct.pack("<4s5I1000x", b"JAM\0", 0, 0, len(mails), GONE, 1), b"", b""
    parts = [headers]
    place, texts_of, at = len(headers), [], 0
    for number, mail in enumerate(mails, 1):
        body = "".join(line + "\r" for line in mail.body).encode("cp437")
        head = jam_head(jam_fields(mail), mail, number, at, len(body))
        index += struct.pack("<2I", 0, place)
        place, at = place + len(head), at + len(body)
        parts.append(head)
        texts_of.append(body)
    texts = b"".join(texts_of)
    for ending, content in ((".jhr", b"".join(parts)), (".jdt", texts), (".jdx", index), (".jlr", b"")):
        write(path + ending, content)


def stored(mail: Mail) -> bytes:
    """A stored message."""
    head = struct.pack("<36s36s72s20s26x", b"Ann", b"All", mail.subject.encode(), date_time(mail))
    return head + text(mail) + b"\0"


def packet(origin: tuple[int, int, int], destination: tuple[int, int, int], mails: list[Mail]) -> bytes:
    """A packet of type 2."""
    head = struct.pack("<12H2B8s2H20s", origin[2], destination[2], 2026, 6, 3, 12, 34, 56, 0, 2, origin[1], destination[1],
                       0, 0, b"", origin[0], destination[0], b"")
    packed = [struct.pack("<7H20s", 2, origin[2], destination[2], origin[1], destination[1], 0, 0, date_time(mail)) +
              b"All\0Ann\0" + mail.subject.encode() + b"\0" + text(mail, True) + b"\0" for mail in mails]
    return head + b"".join(packed) + b"\0\0"


def json_line(mail: Mail, sender: Optional[str] = None) -> bytes:
    """A line of JSON as `export --json` writes it. It needs whole entries in PATH."""
    path = [entry for line in mail.path for entry in line.split()]
    lines = (["\x01MSGID: " + mail.msgid] if mail.msgid is not None else []) + list(mail.body)
    return json.dumps({
        "number": 0, "area": mail.tag, "state": "scanned", "sender": sender, "from": "Ann", "to": "All", "subject": mail.subject,
        "date": date_time(mail).decode(), "charset": "CP437", "label": None, "msgid": mail.msgid, "reply": None, "tear": None,
        "origin": None, "seen": len(mail.seen), "seenby": list(mail.seen), "path": path, "lines": lines,
    }).encode() + b"\n"


def write(path: str, content: bytes) -> str:
    """Writes a file."""
    with open(path, "wb") as file:
        file.write(content)
    return path


class Ended(NamedTuple):
    """How a run ended."""
    status: int
    out: str
    fault: str


def run(tool: str, *words: str, given: bytes = b"", cwd: Optional[str] = None) -> Ended:
    """Runs a tool."""
    done = subprocess.run([PYTHON, os.path.join(TOOLS, tool), *words], input=given, cwd=cwd, check=False, timeout=600,
                          stdout=subprocess.PIPE, stderr=subprocess.PIPE)
    return Ended(done.returncode, done.stdout.decode(), done.stderr.decode())


def echonet(*words: str, given: bytes = b"", cwd: Optional[str] = None) -> Ended:
    """Runs the program."""
    done = subprocess.run([PROGRAM, *words], input=given, cwd=cwd, check=False, stdout=subprocess.PIPE, stderr=subprocess.PIPE)
    return Ended(done.returncode, done.stdout.decode(), done.stderr.decode())


def files(folder: str) -> dict[str, str]:
    """The files of a folder."""
    found = {}
    for name in sorted(os.listdir(folder)):
        with open(os.path.join(folder, name), encoding="ascii") as file:
            found[name] = file.read()
    return found
