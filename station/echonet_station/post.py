"""Posts a message by the words of a command line, its body on standard input.

The time is that of the clock in UTC, as a line TZUTC says. The serial is the clock's count of seconds, or the first number
after it that no message has. So a station that lost its base uses no old serial, unless its clock was set back. While the
base has fewer messages than at an earlier scan, nothing is posted."""
from __future__ import annotations

import base64
import os
import sys
from os.path import join

from fidonet.charsets import Unwritable

from .calls import Called, call, program
from .counts import may_post
from .faults import Status, Stopped
from .options import given_by
from .own_charset import Written, posting
from .station import Station
from .words import BY_NAME

CLOCK = b"\x01TZUTC: 0000\n"
FIELDS = ("to", "from", "subject")
HEADERS = {"to": "To: %s <to@here>\n", "from": "From: %s <from@here>\n", "subject": "Subject: %s\n"}


def quoted(text: str) -> str:
    """A text as a header of a mail message (RFC 2047)."""
    return "=?utf-8?b?%s?=" % base64.b64encode(text.encode("utf-8")).decode("ascii")


def as_mail(text: Written, body: bytes) -> tuple[bytes, list[str]]:
    """A mail message with the fields that no word of a command line can have, and the words for the others."""
    charset, head, words = text.charset or "UTF-8", "", []
    for name, field in zip(FIELDS, text.fields):
        if field.isascii():
            words.append("--%s=%s" % (name, field.decode("ascii")))
        else:
            head += HEADERS[name] % quoted(field.decode(codec(charset)))
    head += "Content-Type: text/plain; charset=utf-8\nContent-Transfer-Encoding: base64\n\n"
    coded = base64.encodebytes(body.decode(codec(charset)).encode("utf-8"))
    return head.encode("ascii") + coded, ["--mail", "--charset=%s" % charset, *words]


def codec(charset: str) -> str:
    """The codec of a charset that is known."""
    from fidonet.charsets import CODECS

    return CODECS[charset]


def call_post(station: Station, area: str, text: Written, reply: str) -> Called:
    """Calls `echonet post`."""
    from fidonet import charsets

    words = ["--area=%s" % area, *(["--reply=%s" % reply] if reply else [])]
    if all(map(charsets.is_utf_8, text.fields)):
        line = charsets.line_of(text.charset) + b"\n" if text.charset else b""
        given = line + CLOCK + text.body
        words += ["--%s=%s" % (name, os.fsdecode(field)) for name, field in zip(FIELDS, text.fields)]
    else:
        given, more = as_mail(text, CLOCK + text.body)
        words += more
    places = (join(station.given, "links"), join(station.given, "base"))
    return call(program(), "post", "--explain", *words, "--serial=auto", "--at=now", *places, given=given, passes_faults=True)


def post(station: Station, words: list[str]) -> int:
    """The command `post`."""
    given = given_by(BY_NAME["post"], words)
    area, *fields = given.words
    if not may_post(station):
        return Status.REFUSED
    body = sys.stdin.buffer.read()
    try:
        text = posting(station, body, tuple(map(os.fsencode, fields[:3])), given.one("--charset"))
    except Unwritable as fault:
        raise Stopped(Status.REFUSED, str(fault)) from fault
    ran = call_post(station, area, text, fields[3] if len(fields) > 3 else "")
    for line in ran.output.split("\n")[:-1]:
        station.say(line)
    return ran.status if ran.status <= Status.COMMAND else Status.FAILED
