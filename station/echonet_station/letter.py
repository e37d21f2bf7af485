"""Writes a letter by the words of a command line, its body on standard input."""
from __future__ import annotations

import os
import re
import sys
from os.path import lexists

from fidonet.addresses import address_of
from fidonet.charsets import Unwritable, line_of

from .faults import Status, Stopped
from .new_letters import NewLetter, write_letter
from .options import given_by
from .own_charset import Written, posting
from .printing import shown_path
from .station import Station
from .words_letters import LETTER

MOST = (("NAME", 35), ("FROM", 35), ("SUBJECT", 71))
CONTROL = re.compile(rb"[\x00-\x1f\x7f]")


def text_of(written: Written) -> bytes:
    """The text: each line ends with 0D."""
    head = line_of(written.charset) + b"\r" if written.charset else b""
    body = written.body.replace(b"\r\n", b"\r").replace(b"\n", b"\r")
    return head + body + (b"\r" if body and not body.endswith(b"\r") else b"")


def letter(station: Station, words: list[str]) -> int:
    """The command `letter`."""
    given = given_by(LETTER, words)
    to = address_of(given.words[0], may_be_point=True)
    if to is None:
        raise Stopped(Status.REFUSED, "bad address %s" % shown_path(given.words[0]))
    station.lock("scan.lock", is_its_run=False)
    station.load()
    if not lexists(station.at("peers")):
        raise Stopped(Status.REFUSED, "no file peers: a scan sends no letters without it")
    try:
        written = posting(station, sys.stdin.buffer.read(), tuple(map(os.fsencode, given.words[1:])), given.one("--charset"))
    except Unwritable as fault:
        raise Stopped(Status.REFUSED, str(fault)) from fault
    for (what, most), field in zip(MOST, written.fields):
        if len(field) > most:
            raise Stopped(Status.REFUSED, "%s has over %d bytes" % (what, most))
        if CONTROL.search(field):
            raise Stopped(Status.REFUSED, "%s has a control byte" % what)
    if b"\0" in written.body:
        raise Stopped(Status.REFUSED, "the body has a byte 00")
    name, by_name, subject = written.fields
    station.say("wrote netmail/%s" % write_letter(station, NewLetter(to, name, by_name, subject, text_of(written))))
    return Status.GOOD
