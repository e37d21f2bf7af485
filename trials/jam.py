"""Reads the output of `export --jam` with a reader of JAM bases, written from JAM-001 only, and with CrashMail II.

The bases are random from a seed. Names, subjects and lines have any bytes. Messages are from here and from elsewhere,
with and without an origin line. Ids and control lines may be too long for a subfield. The bases are exported at once,
in pieces, and after stopped runs. Each time every message is exported once, unchanged. With crashmail its SCAN has to
send exactly the message that was posted here. Argument: how many messages.
"""
import calendar
import fcntl
import os
import random
import shutil
import signal
import struct
import subprocess
import sys
import tempfile
import time
import zlib

import export
from lib import making
from lib.contents import PROGRAM, read, write

ENDS = (".jhr", ".jdt", ".jdx", ".jlr")
GONE, DELETED, ECHOMAIL, LOCAL, SENT = 0xffffffff, 1 << 31, 1 << 24, 1, 16
MONTHS = "JanFebMarAprMayJunJulAugSepOctNovDec"
BLANKS = b" \t\n"
LONGEST = {4: 100, 5: 100, 7: 40, 2000: 255}


def crc(content):
    """The CRC of a name or an id: that of the small letters, not inverted at the end."""
    return zlib.crc32(content.lower()) ^ 0xffffffff


class Header:
    """A header of a message with its subfields, and its text."""

    def __init__(self, headers, place, texts):
        mark, revision, _ = struct.unpack_from("<4s2H", headers, place)
        if (mark, revision) != (b"JAM\0", 1):
            sys.exit("no header at %d" % place)
        (size, self.times_read, self.msgid, self.reply, self.reply_to, self.first_reply, self.next_reply, self.written,
         self.received, self.processed, self.number, self.attribute, self.attribute2, at, length, self.password,
         self.cost) = struct.unpack_from("<17I", headers, place + 8)
        self.fields, here, end = [], place + 76, place + 76 + size
        while here < end:
            low, high, length_of = struct.unpack_from("<2HI", headers, here)
            self.fields.append((low, headers[here + 8:here + 8 + length_of]))
            if high or len(self.fields[-1][1]) != length_of:
                sys.exit("a subfield at %d" % here)
            here += 8 + length_of
        if here != end or end > len(headers) or at + length > len(texts):
            sys.exit("the header at %d" % place)
        self.text = texts[at:at + length]


class Jam:
    """A JAM base as a reader opens it."""

    def __init__(self, path):
        headers, texts, index, _ = (read(path + end) for end in ENDS)
        mark, self.created, self.changes, self.active, self.password, first = struct.unpack_from("<4s5I", headers)
        if mark != b"JAM\0" or len(headers) < 1024 or any(headers[24:1024]) or self.password != GONE:
            sys.exit("the fixed header of %s" % path)
        self.messages = []
        for i in range(len(index) // 8):
            to_crc, place = struct.unpack_from("<2I", index, 8 * i)
            if place == GONE:
                continue
            message = Header(headers, place, texts)
            to = [content for kind, content in message.fields if kind == 3]
            if message.number != first + i or to_crc != crc(to[0]):
                sys.exit("entry %d of %s" % (i, path))
            if not message.attribute & DELETED:
                self.messages.append(message)

    def check_active(self):
        """The count of active messages is that of the index."""
        if self.active != len(self.messages):
            sys.exit("active: %d, and not %d" % (self.active, len(self.messages)))


def is_pair(date, at):
    """Whether two digits stand there."""
    return date[at:at + 2].isdigit()


def seconds_of(date):
    """The seconds of a DateTime, 0 where it has another form."""
    month = MONTHS.find(date[3:6].decode("latin-1"))
    if not all(is_pair(date, at) for at in (0, 7, 11, 14, 17)) or month < 0 or month % 3:
        return 0
    day, year, hour, minute, second = (int(date[at:at + 2]) for at in (0, 7, 11, 14, 17))
    first = calendar.timegm((year + (2000 if year < 80 else 1900), month // 3 + 1, 1, 0, 0, 0))
    return first + max(day - 1, 0) * 86400 + hour * 3600 + minute * 60 + second


def wanted_fields(message):
    """The subfields of a message, how many of them are cut, and its text."""
    address = message.origin or message.sender
    fields = [(0, making.shown(address).encode())] if address else []
    fields += [(2, message.by), (3, message.to), (6, message.subject)]
    body, cuts = b"", 0
    for line in message.written.split(b"\r")[1:-1]:
        bare = line.lstrip(b"\n")
        words = ((b"\x01MSGID:", 4), (b"\x01REPLY:", 5), (b"\x01PID:", 7), (b"\x01PATH:", 2002), (b"SEEN-BY:", 2001),
                 (b"\x01", 2000))
        for word, kind in words:
            if bare.startswith(word):
                content = bare[len(word):].strip(BLANKS)
                cuts += len(content) > LONGEST.get(kind, len(content))
                fields.append((kind, content[:LONGEST.get(kind, len(content))]))
                break
        else:
            body += line + b"\r"
    return fields, cuts, body


def check(message, got):
    """A message of the JAM base is the one of the base."""
    fields, _, body = wanted_fields(message)
    ids = {kind: crc(content) for kind, content in reversed(fields) if kind in (4, 5)}
    numbers = (got.written, got.attribute, got.msgid, got.reply)
    kind = 0 if message.sender else LOCAL | SENT if message.scanned else LOCAL
    expected = (seconds_of(message.date), ECHOMAIL | kind, ids.get(4, GONE), ids.get(5, GONE))
    if got.fields != fields or got.text != body or numbers != expected:
        sys.exit("message %d: %r, and not %r" % (message.number, (got.fields, got.text, numbers), (fields, body, expected)))
    if any((got.times_read, got.received, got.processed, got.attribute2, got.cost)) or got.password != GONE:
        sys.exit("message %d: a number that is not 0" % message.number)


def made(chance, number, ids):
    """A random message, with its expected form."""
    message = export.Message(chance, number, ids)
    message.scanned = False
    message.sender = chance.choice([None, (1, 10, 2), (65535, 1, 65534)])
    message.origin = chance.choice([None, (2, 5020, 1042)])
    long_line = b"\x01Via " + b"x" * chance.choice([250, 251, 252, 400])
    others = [b"\x01PID: " + b"p" * chance.choice([3, 40, 41]), long_line, b"\x01  Blanks \t"]
    message.kept = message.kept[:1] + chance.sample(others, chance.randrange(3)) + message.kept[1:]
    if chance.random() < 0.1:
        message.kept[0] = b"\x01MSGID: %08x" % number + b"y" * chance.choice([92, 93, 200])
    if message.origin:
        message.kept.append(b" * Origin: a (b) (2:5020/1042.7@fidonet)")
    message.written = making.text(b"TEST", message.kept, [(10, 1), (10, 2)], [(10, 2)])
    message.content = making.stored(
        1 if message.sender else 0, message.sender or (0, 0, 0), making.whole_body(message.written), message.to,
        message.by, message.subject, message.date)
    return message


def write_base(path, messages):
    """Makes the base of these messages, of which the first were scanned."""
    write(path, making.base(sum(message.scanned for message in messages), [message.content for message in messages]))


def run(path, base, first=0):
    """Exports from one on. Returns the status and the output."""
    words = [PROGRAM, "export", "--jam", path, "--area", "test", "--from", str(first), base]
    done = subprocess.run(words, stdout=subprocess.PIPE, stderr=subprocess.PIPE, check=False)
    return done.returncode, done.stdout.decode(), done.stderr.decode()


def add(path, base, first, messages, end):
    """Exports these messages, the last ones of the base."""
    cuts = sum(wanted_fields(message)[1] for message in messages)
    told = "echonet: %d control lines cut\n" % cuts if cuts else ""
    expected = (0, "exported %d messages, next %d\n" % (len(messages), end), told)
    got = run(path, base, first)
    if got != expected:
        sys.exit("exported: %r, and not %r" % (got, expected))


def wanted_links(found):
    """The message that each replies to, the first reply to it, and the next reply to the same message, in turn."""
    links = [[0, 0, 0] for _ in found]
    for i, message in enumerate(found):
        parents = [k for k in range(i) if found[k].msgid == message.reply]
        if message.reply == GONE or not parents:
            continue
        parent = parents[-1]
        number = found[parent].number
        before = [k for k in range(parent + 1, i) if links[k][0] == number]
        at, field = (before[-1], 2) if before else (parent, 1)
        links[at][field] = links[at][field] or message.number
        links[i][0] = number
    return links


def check_links(found, was_stopped):
    """The messages are linked. After a stopped run, older messages may lack their last replies."""
    for message, (reply_to, first, following) in zip(found, wanted_links(found)):
        if message.reply_to != reply_to:
            sys.exit("message %d replies to %d, and not %d" % (message.number, message.reply_to, reply_to))
        for got, wanted in ((message.first_reply, first), (message.next_reply, following)):
            if got != wanted and not (was_stopped and got == 0):
                sys.exit("a reply of message %d: %d, and not %d" % (message.number, got, wanted))


def check_all(path, messages, was_stopped=False):
    """The JAM base has these messages, each once, and its counts agree."""
    jam = Jam(path)
    if len(jam.messages) != len(messages):
        sys.exit("%d messages, and not %d" % (len(jam.messages), len(messages)))
    for message, got in zip(messages, jam.messages):
        check(message, got)
    jam.check_active()
    check_links(jam.messages, was_stopped)
    return jam


def contents(path):
    """The bytes of the four files."""
    return [read(path + end) for end in ENDS]


def put(path, files):
    """Makes the four files."""
    for end, content in zip(ENDS, files):
        write(path + end, content)


def stops(chance, before, after):
    """The contents of the files if a run was stopped, after each of its writes and within them."""
    headers, texts, index, last = after
    grown = before[0] + headers[len(before[0]):]

    def part(old, new):
        return new[:chance.randrange(len(old), len(new) + 1)]

    yield [before[0], part(before[1], texts), before[2], last]
    yield [part(before[0], grown), texts, before[2], last]
    yield [grown, texts, part(before[2], index), last]
    yield [grown, texts, index, last]


def try_stopped(chance, place, base, messages, cut):
    """Stopped runs leave a base with the first messages, and a next run goes on."""
    path = os.path.join(place, "stopped")
    write_base(base, messages[:cut])
    add(path, base, 0, messages[:cut], cut)
    before = contents(path)
    write_base(base, messages)
    add(path, base, cut, messages[cut:], len(messages))
    after = contents(path)
    for files in stops(chance, before, after):
        put(path, files)
        found = Jam(path).messages
        if not cut <= len(found) <= len(messages):
            sys.exit("after a stopped run there are %d messages" % len(found))
        for message, got in zip(messages, found):
            check(message, got)
        add(path, base, 0, messages[len(found):], len(messages))
        check_all(path, messages, True)


def try_changed(path, base, messages):
    """What a reader changed stays, and the last message is recognized by the rest of it."""
    headers, texts, index, last = contents(path)
    place, = struct.unpack_from("<I", index, len(index) - 4)
    changed = bytearray(headers)
    struct.pack_into("<I", changed, place + 12, 7)
    struct.pack_into("<3I", changed, place + 24, 1, 2, 3)
    first, = struct.unpack_from("<I", index, 4)
    attribute, = struct.unpack_from("<I", changed, first + 52)
    struct.pack_into("<I", changed, first + 52, attribute | DELETED)
    struct.pack_into("<I", changed, 12, len(messages) - 1)
    put(path, [bytes(changed), texts, struct.pack("<2I", GONE, GONE) + index[8:], last])
    files = contents(path)
    add(path, base, 0, [], len(messages))
    if contents(path) != files:
        sys.exit("a run that adds nothing changed the files")


def try_refused(place, base):
    """Files of another kind, and damaged ones, are refused and stay unchanged."""
    path = os.path.join(place, "refused")
    whole = contents(os.path.join(place, "once"))
    headers, texts, index, last = whole
    bad = [[b"", texts, index, last], [b"jam" + headers[3:], texts, index, last], [b"JAM\1" + headers[4:], texts, index, last],
           [headers[:1023], texts, b"", last], [headers[:-1], texts, index, last], [headers, texts[:-1], index, last],
           [headers, texts, index + struct.pack("<2I", 0, 512), last], [headers, b"", index, last],
           [headers[:20] + b"\xff" * 4 + headers[24:], texts, index, last]]
    for files in bad:
        put(path, files)
        got = run(path, base)
        if got != (3, "", "echonet: cannot use %s\n" % path) or contents(path) != files:
            sys.exit("refused %d: %r" % (bad.index(files), got))
    os.remove(path + ".jhr")
    got = run(path, base)
    if got[0] != 3 or os.path.exists(path + ".jhr"):
        sys.exit("no headers: %r" % (got,))


def try_locked(path, base, end):
    """A run waits for the lock of the headers."""
    with open(path + ".jhr", "rb") as file:
        fcntl.flock(file, fcntl.LOCK_EX)
        words = [PROGRAM, "export", "--jam", path, "--area", "TEST", "--from", str(end), base]
        with subprocess.Popen(words, stdout=subprocess.PIPE) as waiting:
            time.sleep(0.3)
            if waiting.poll() is not None:
                sys.exit("a run did not wait for the lock")
            fcntl.flock(file, fcntl.LOCK_UN)
            if waiting.communicate()[0] != b"exported 0 messages, next %d\n" % end:
                sys.exit("a run that waited")


def try_kills(chance, place, count):
    """Runs that are killed at any time."""
    base, path = os.path.join(place, "many"), os.path.join(place, "killed")
    messages = [made(chance, number, []) for number in range(2000)]
    write_base(base, messages)
    for _ in range(count):
        for end in ENDS:
            if os.path.exists(path + end):
                os.remove(path + end)
        for _ in range(3):
            with subprocess.Popen([PROGRAM, "export", "--jam", path, "--area", "TEST", base],
                                  stdout=subprocess.DEVNULL, stderr=subprocess.DEVNULL) as killed:
                time.sleep(chance.random() * 0.03)
                killed.send_signal(signal.SIGKILL)
            if os.path.exists(path + ".jhr"):
                Jam(path)
        if run(path, base)[0] != 0:
            sys.exit("after a killed run")
        check_all(path, messages)


def crashmail_settings(folder, own, links):
    """A configuration of CrashMail in a folder, without areas. Makes its folders."""
    names = ("inbound", "outbound", "temp", "create", "packets", "bad", "netmail")
    for name in names:
        os.makedirs(os.path.join(folder, name), exist_ok=True)
    words = ("INBOUND", "OUTBOUND", "TEMPDIR", "CREATEPKTDIR", "PACKETDIR")
    lines = ['SYSOP "Bob"', 'LOGFILE "%s/log"' % folder, "LOGLEVEL 5", 'DUPEFILE "%s/dupes" 65000' % folder, "DUPEMODE BAD",
             "LOOPMODE LOG", "MAXPKTSIZE 20000", "DEFAULTZONE 1", "CHECKSEENBY", "CHECKPKTDEST", "IMPORTSEENBY"]
    lines += ['%s "%s/%s"' % (word, folder, name) for word, name in zip(words, names)]
    lines += ['STATSFILE "%s/stats"' % folder, "AKA " + own, 'DOMAIN "fidonet"']
    lines += ['NODE %s "" ""' % link for link in links]
    lines += ['NETMAIL "NETMAIL" %s MSG "%s/netmail"' % (own, folder), 'AREA "BAD" %s MSG "%s/bad"' % (own, folder)]
    return "\n".join(lines + [""])


def try_crashmail(place, messages):
    """CrashMail's SCAN sends the message that was posted here and not scanned, and no other.

    It cannot read some of the others. It cannot read some JAM bases that it made itself either.
    """
    folder = os.path.join(place, "crashmail")
    shutil.copytree(os.path.join(place, "jams"), os.path.join(folder, "jam"))
    with open(os.path.join(folder, "prefs"), "w", encoding="ascii") as file:
        file.write(crashmail_settings(folder, "1:10/1", ["1:10/9"]))
        file.write('AREA "TEST" 1:10/1 JAM "%s/jam/test"\nEXPORT 1:10/9\n' % folder)
    done = subprocess.run(["crashmail", "SETTINGS", os.path.join(folder, "prefs"), "SCAN"], stdout=subprocess.PIPE,
                          stderr=subprocess.STDOUT, check=False)
    sent = b"".join(read(os.path.join(folder, "packets", name)) for name in os.listdir(os.path.join(folder, "packets")))
    came = [message.number for message in messages if b"\x01MSGID: " + message.id + b"\r" in sent]
    if came != [1]:
        sys.exit("CrashMail: %r\n%s" % (came, done.stdout.decode("latin-1")))


def plain(number):
    """A message as people write them. The first two were posted here, and the first one was scanned."""
    message = export.Message(random.Random(number), number, [])
    message.to, message.by, message.subject, message.date = b"All", b"Ann", b"Number %d" % number, making.DATE
    message.sender, message.origin = (1, 10, 2) if number > 1 else None, None
    message.scanned = number == 0
    message.kept = [b"\x01MSGID: " + message.id, b"Line %d" % number, b"--- trials", b" * Origin: Two (1:10/2)"]
    message.written = making.text(b"TEST", message.kept, [(10, 1), (10, 2)], [(10, 2)])
    message.content = making.stored(
        1 if message.sender else 0, message.sender or (0, 0, 0), making.whole_body(message.written), message.to,
        message.by, message.subject, message.date)
    return message


def try_base(chance, place, count):
    """A base, and its JAM base made in three ways."""
    messages = []
    for number in range(count):
        messages.append(made(chance, number, [message.id for message in messages]))
    cut = chance.randrange(1, count)
    for message in messages[:chance.randrange(cut + 1)]:
        message.scanned = True
    base, once = os.path.join(place, "base"), os.path.join(place, "once")
    write_base(base, messages)
    add(once, base, 0, messages, count)
    if check_all(once, messages).changes != 1:
        sys.exit("the counter of changes")
    files = contents(once)
    pieces = os.path.join(place, "pieces")
    write_base(base, messages[:cut])
    add(pieces, base, 0, messages[:cut], cut)
    write_base(base, messages)
    add(pieces, base, cut, messages[cut:], count)
    check_all(pieces, messages)
    if [content[16:] for content in contents(pieces)] != [content[16:] for content in files]:
        sys.exit("in pieces other files come")
    try_stopped(chance, place, base, messages, cut)
    try_refused(place, base)
    try_locked(once, base, count)
    try_changed(once, base, messages)


def main():
    """Bases of a hundred messages."""
    count = int(sys.argv[1]) if len(sys.argv) > 1 else 1000
    chance = making.try_hundreds(max(2, count), try_base)
    with tempfile.TemporaryDirectory() as place:
        try_kills(chance, place, 20)
    told = "there is no CrashMail here"
    if shutil.which("crashmail"):
        with tempfile.TemporaryDirectory() as place:
            messages = [plain(number) for number in range(50)]
            os.makedirs(os.path.join(place, "jams"))
            write_base(os.path.join(place, "base"), messages)
            add(os.path.join(place, "jams", "test"), os.path.join(place, "base"), 0, messages, 50)
            try_crashmail(place, messages)
        told = "CrashMail sent what was posted here"
    print("jam.py: %d messages exported as a JAM base, each read as what it is; %s" % (count, told))


if __name__ == "__main__":
    main()
