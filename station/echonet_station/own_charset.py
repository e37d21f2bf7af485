"""The charset of what is posted here: that of `settings`, or UTF-8. Names that are no UTF-8 go as a mail message, since
words of a command line have to be UTF-8."""
from __future__ import annotations

from dataclasses import dataclass
from typing import Optional

from fidonet import charsets
from fidonet.charsets import UTF_8, Unwritable
from fidonet.stored import Stored

from .faults import Status, Stopped
from .printing import shown_path
from .station import Station

NO_UTF_8 = "not UTF-8: give --charset"


@dataclass(frozen=True)
class Written:
    """A body and its fields in the charset in which they are posted."""

    body: bytes
    fields: tuple[bytes, ...]
    charset: Optional[str] = None  # nothing, if they are ASCII or stay as they are

    def with_line(self) -> bytes:
        """The body with its CHRS line."""
        return self.body if self.charset is None else charsets.line_of(self.charset) + b"\r" + self.body


def known_charset(name: str) -> str:
    """The name of a charset that can be read and written."""
    if charsets.codec_of(name) is None:
        raise Stopped(Status.REFUSED, "no charset %s" % shown_path(name))
    return name.upper()


def charset_of(station: Station) -> Optional[str]:
    """The charset of `settings`."""
    name = station.settings.get("CHARSET")
    return known_charset(name) if name else None


def letters_of(text: bytes, other: Optional[str]) -> str:
    """A text as letters: UTF-8, or else in the other charset."""
    if charsets.is_utf_8(text):
        return text.decode("utf-8")
    if other is None:
        raise Unwritable(NO_UTF_8)
    return charsets.read(text, other)


def written_in(charset: str, body: str, fields: tuple[str, ...]) -> Written:
    """A body and its fields in a charset."""
    encoded = tuple(charsets.written(it, charset) for it in fields)
    return Written(charsets.written(body, charset), encoded, charset)


def posting(station: Station, body: bytes, fields: tuple[bytes, ...], stated: str = "") -> Written:
    """What is typed, as it is posted: in the charset of `settings`, else in the stated one, else in UTF-8. A CHRS line of
    the body wins."""
    own = charset_of(station)
    given = known_charset(stated) if stated else None
    if charsets.has_label(body) or charsets.is_ascii(body, *fields):
        return Written(body, fields)
    letters = charsets.read(body, given) if given else letters_of(body, None)
    return written_in(own or given or UTF_8, letters, tuple(letters_of(field, given) for field in fields))


def own_or_utf_8(station: Station, text: bytes, fields: tuple[bytes, ...]) -> Written:
    """What an editor wrote, as it is posted. Bytes that are no UTF-8 are taken as in the charset of `settings`; without it they
    stay."""
    own = charset_of(station)
    if charsets.is_ascii(text, *fields) or (own is None and not all(map(charsets.is_utf_8, (text, *fields)))):
        return Written(text, fields)
    return written_in(own or UTF_8, letters_of(text, own), tuple(letters_of(field, own) for field in fields))


def as_stored(station: Station, file: Stored) -> tuple[tuple[bytes, bytes, bytes], bytes]:
    """Addressee, author, subject and text of a stored message as they are posted. A CHRS line of the text wins."""
    fields, text = (file.field("to"), file.field("from"), file.field("subject")), file.text()
    if charsets.has_label(text):
        return fields, text
    new = own_or_utf_8(station, text, fields)
    return (new.fields[0], new.fields[1], new.fields[2]), new.with_line()
