"""Trials for "keeps"."""
from lib import making
from trying import ONE, message, new_id, trials_of, with_id

TRIALS, trial = trials_of("keeps")


def with_body(subject, *lines):
    """A message with these lines after its id."""
    return message(subject, with_id(new_id(subject), *lines))


@trial()
def names_and_dates(run):
    """the longest names and subject, empty ones, bytes over 7F, another form of date"""
    run.toss(ONE, message(b"s" * 71, to=b"t" * 35, by=b"b" * 35), message(b"\x80\xff\x8d", to=b"\xe9", by=b"\xff"),
             message(b"No names", to=b"", by=b""), message(b"Old date", date=b"Mon  1 Jan 86 02:34\0"))


@trial()
def every_byte(run):
    """lines with every byte but 00 and 0D, blank lines, control lines of many kinds"""
    every = bytes(byte for byte in range(2, 256) if byte != 13)
    controls = [b"\x01" + word for word in (b"REPLY: 1:10/1 00000001", b"PID: x", b"TID: x", b"CHRS: UTF-8 4",
                                            b"FLAGS DIR", b"INTL 1:10/1 1:10/2", b"FMPT 1", b"Via 1:10/1", b"X: y")]
    run.toss(ONE, with_body(b"Bytes", every[:100], every[100:], b"", b" ", *controls, b"Hello", b"", b"... quoted",
                            b"--- x", b"AREA:OTHER", b" * Origin: x (1:10/11)", *controls))


@trial()
def long_text(run):
    """a line of 100,000 bytes, and a text of 2 MB"""
    lines = [b"%070d" % number for number in range(30000)]
    run.toss(ONE, with_body(b"Line", b"word " * 20000 + b"."), with_body(b"Text", *lines))


@trial("keeps", "tells")
def no_last_line_end(run):
    """a text ends without 0D: SEEN-BY follows its last line directly, as a part of it"""
    text = making.text(b"TEST", with_id(new_id(b"No end"), b"Hello"), [], [])
    run.toss(ONE, message(b"No end", text=text[:-1]))


@trial("keeps", "sends once")
def seen_in_body(run):
    """a body line begins with SEEN-BY:. It is dropped, and the systems in it are not sent the message"""
    run.toss(ONE, with_body(b"Seen", b"Before", b"SEEN-BY: 10/3", b"After"))


@trial("keeps", "sends once")
def seen_in_long_line(run):
    """so too if SEEN-BY: follows the 198th byte of a line"""
    run.toss(ONE, with_body(b"Long", b"x" * 198 + b"SEEN-BY: 10/3", b"After"))


@trial("keeps", "sends once")
def seen_behind_line_feed(run):
    """so too if it follows a line feed"""
    run.toss(ONE, with_body(b"Feed", b"Before\nSEEN-BY: 10/3", b"After"))


@trial("keeps")
def path_in_body(run):
    """a body line begins with ^APATH:. It is dropped"""
    run.toss(ONE, with_body(b"Path", b"Before", b"\x01PATH: 10/9", b"After"))
