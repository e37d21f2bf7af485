"""The charsets of messages: their labels in CHRS lines (FTS-5003), and their codecs."""
from __future__ import annotations

import re
from typing import Optional

CODECS = {
    "ASCII": "ascii",
    "CP437": "cp437",
    "IBMPC": "cp437",
    "CP850": "cp850",
    "CP866": "cp866",
    "+7_FIDO": "cp866",
    "CP1251": "cp1251",
    "KOI8-R": "koi8_r",
    "LATIN-1": "latin_1",
    "UTF-8": "utf_8",
}
UTF_8 = "UTF-8"
LEVELS = {"ASCII": 1, UTF_8: 4}  # the others have 2
LABEL = re.compile(rb"(?:^|[\r\n])\n*\x01CHRS:")


class Unwritable(Exception):
    """A text that a charset does not have. The line says why."""


def codec_of(label: str) -> Optional[str]:
    """The codec of a charset, its name in letters of either case. Nothing for one that is not known."""
    return CODECS.get(label.upper())


def is_ascii(*texts: bytes) -> bool:
    """Whether no byte is above 7F."""
    return all(text.isascii() for text in texts)


def is_utf_8(text: bytes) -> bool:
    """Whether bytes are UTF-8."""
    try:
        text.decode("utf-8")
    except UnicodeDecodeError:
        return False
    return True


def has_label(text: bytes) -> bool:
    """Whether a text has a CHRS line."""
    return LABEL.search(text) is not None


def line_of(charset: str) -> bytes:
    """The CHRS line of a charset, without its end."""
    name = charset.upper()
    return b"\x01CHRS: %s %d" % (name.encode("ascii"), LEVELS.get(name, 2))


def written(text: str, charset: str) -> bytes:
    """A text in a charset."""
    try:
        return text.encode(CODECS[charset.upper()])
    except UnicodeEncodeError as fault:
        letter = text[fault.start]
        raise Unwritable("cannot write '%s' in %s" % (letter, charset.upper())) from fault


def read(text: bytes, charset: str) -> str:
    """The letters of bytes in a charset."""
    try:
        return text.decode(CODECS[charset.upper()])
    except UnicodeDecodeError as fault:
        raise Unwritable("not %s: byte %02x" % (charset.upper(), text[fault.start])) from fault
