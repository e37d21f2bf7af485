"""Reads the output of `export` with common readers: Python's json, its mailbox and its email.

The bases are random from a seed, with names, subjects and lines of any bytes. They use eight charsets and one that
the program does not know. Another base has the real packets in examples/packets. The readers have to read each
message as it is in the base, decoded by iconv. Argument: how many messages.
"""
import email.header
import json
import mailbox
import os
import random
import re
import subprocess
import sys
import tempfile

from lib import making, reading
from lib.contents import PROGRAM, TOP

CHARSETS = {
    b"ASCII": "ASCII", b"CP437": "CP437", b"CP850": "CP850", b"CP866": "CP866", b"CP1251": "CP1251",
    b"KOI8-R": "KOI8-R", b"LATIN-1": "ISO-8859-1", b"UTF-8": "UTF-8"}
OLD_NAMES = {b"IBMPC": b"CP437", b"+7_FIDO": b"CP866"}
LOST = "\ufffd"
MOST = 500
DATES = ((making.DATE, "03 Jul 2026 12:34:56 -0000"), (b"29 Feb 80  00:00:00\0", "29 Feb 1980 00:00:00 -0000"),
         (b"31 Dec 99  23:59:59\0", "31 Dec 1999 23:59:59 -0000"), (b"03 \n\n\n 26  12:34:56\0", None),
         (b"Fri  3 Jul 26 12:34\0", None), (b"32 Jul 26  12:34:56\0", None), (b"03 Jul 26  24:00:00\0", None),
         (b"\xff" * 20, None), (bytes(20), None))
LONGEST_LINE, LONGEST_WORD = 76, 75


def table_of(charset):
    """The characters of the bytes of a charset, by iconv, with U+FFFD for bytes without a character."""
    table = {}
    for byte in range(256):
        made = subprocess.run(["iconv", "-f", CHARSETS[charset], "-t", "UTF-8"], input=bytes([byte]),
                              stdout=subprocess.PIPE, stderr=subprocess.DEVNULL)
        table[byte] = made.stdout.decode() if made.returncode == 0 else LOST
    return table


TABLES = {charset: table_of(charset) for charset in CHARSETS if charset != b"UTF-8"}


def decoded(charset, content):
    """Bytes as text. In an unknown charset each byte is a character."""
    if charset is None:
        return content.decode("latin-1")
    if charset == b"UTF-8":
        return content.decode("utf-8", "replace")
    return "".join(TABLES[charset][byte] for byte in content)


def some_bytes(chance, most):
    """Bytes of a name, a subject or a line."""
    size, kind = int(most * chance.random() ** 2), chance.random()
    if kind < 0.4:
        return bytes(chance.choice(b"abcXYZ 019 .,:;<>()@[]=?_\"\\'-") for _ in range(size))
    if kind < 0.7:
        return "".join(chance.choice("aé ßЖф中\U0001f600 -") for _ in range(size)).encode()[:most]
    return bytes(chance.choice([byte for byte in range(1, 256) if byte != 13]) for _ in range(size))


class Message:
    """A message of a base, and how readers have to read it."""

    def __init__(self, chance, number, ids):
        self.number, self.id = number, b"1:10/2 %08x" % number
        self.reply = chance.choice(ids) if ids and chance.random() < 0.5 else None
        self.label, self.charset = self.chosen(chance)
        self.to, self.by, self.subject = (some_bytes(chance, most) for most in (35, 35, 71))
        self.date, self.moment = chance.choice(DATES)
        self.body = [self.line(chance) for _ in range(chance.randrange(1, 6))] + [b"--- trials"]
        self.kept = [b"\x01MSGID: " + self.id]
        if self.reply is not None:
            self.kept.append(b"\x01REPLY: " + self.reply)
        if self.label is not None:
            self.kept.append(b"\x01CHRS: " + self.label)
        self.kept += self.body
        self.tag, self.seen, self.path = "TEST", "2", "10/2"

    @staticmethod
    def chosen(chance):
        """The words of the CHRS line, and the charset."""
        kind = chance.random()
        if kind < 0.1:
            return None, b"CP437"
        if kind < 0.2:
            return b"MAC 2", None
        name = chance.choice(list(CHARSETS) + list(OLD_NAMES))
        return (name if kind < 0.6 else name.lower()) + b" 2", OLD_NAMES.get(name, name)

    @staticmethod
    def line(chance):
        """A line of the body that is no control line, and that no reader mistakes for another part of the text."""
        front = chance.choice([b"", b"", b"\n", b"From ", b">From ", b"\nFrom "])
        line = front + some_bytes(chance, 120) + chance.choice([b"", b"\nFrom x", b"\n\n"])
        bare = line.lstrip(b"\n")
        if bare.startswith((b"\x01", b"SEEN-BY:", b"---", b" * Origin: ")) or not bare.strip(b" \t\n"):
            return b"x" + bare
        return line

    def stored(self):
        """Its bytes in a base."""
        text = making.text(b"TEST", self.kept, [(10, 1), (10, 2)], [(10, 2)])
        return making.stored(1, (1, 10, 2), making.whole_body(text), self.to, self.by, self.subject, self.date)

    def text(self, content):
        """Bytes of it as JSON has them."""
        return decoded(self.charset, content)


def check_json(message, line):
    """One line is one object, with exactly the message of the base."""
    label = message.label
    expected = {
        "number": message.number, "area": "TEST", "state": "waiting", "sender": "1:10/2",
        "from": message.text(message.by), "to": message.text(message.to), "subject": message.text(message.subject),
        "date": message.text(message.date.rstrip(b"\0")), "charset": message.charset and message.charset.decode(),
        "label": label and label.decode("latin-1"), "msgid": message.id.decode(),
        "reply": message.reply and message.reply.decode(), "tear": "--- trials", "origin": None, "seen": 2,
        "seenby": ["10/1", "10/2"], "path": ["10/2"], "lines": [message.text(kept) for kept in message.kept]}
    read = json.loads(line.decode("utf-8", "strict"))
    if read != expected or list(read) != list(expected):
        sys.exit("message %d: %r, and not %r" % (message.number, read, expected))


def mailed(message, content):
    """Bytes of a message as its mail has them."""
    return content if message.charset is None else message.text(content).encode()


def check_lines(name, lines):
    """A header line with encoded words has no line and no word that is too long for RFC 2047."""
    words = [word for line in lines for word in re.findall(r"=\?[^?]*\?Q\?[^?]*\?=", line)]
    if words and (max(map(len, lines)) > LONGEST_LINE or max(map(len, words)) > LONGEST_WORD):
        sys.exit("a line or a word of %s is too long: %r" % (name, lines))


def unfolded(mail, name):
    """A header line in bytes, its encoded words decoded, or None if there is none."""
    found = mail.get(name)
    if found is None:
        return None
    check_lines(name, (name + ": " + found).split("\n"))
    parts = email.header.decode_header(found)
    for part, charset in parts:
        if charset == "utf-8":
            part.decode("utf-8", "strict")
    return b"".join(part.encode("ascii") if isinstance(part, str) else part for part, _ in parts)


def name_in(mail, name):
    """The name of a line, without its address and quotes."""
    found = re.fullmatch(rb"(?s)(.*) <fido@fido\.invalid>", unfolded(mail, name))
    if not found:
        sys.exit("%s: %r" % (name, unfolded(mail, name)))
    return found.group(1)[1:-1] if mail[name].startswith('"') else found.group(1)


def id_of(found):
    """The id that a Message-ID was made of."""
    made = re.fullmatch(r"<([0-9a-f]*)@fido\.invalid>", found or "")
    return bytes.fromhex(made.group(1)) if made else found


def without_feeds(line):
    """A line as the body of a mail has it, except for its charset."""
    return line.lstrip(b"\n")


def check_mail(message, mail):
    """A mail, with exactly the message of the base."""
    shown = {
        "From": name_in(mail, "From"), "To": name_in(mail, "To"), "Subject": unfolded(mail, "Subject"),
        "Date": mail.get("Date"), "X-FTN-Date": unfolded(mail, "X-FTN-Date"), "Message-ID": id_of(mail.get("Message-ID")),
        "In-Reply-To": id_of(mail.get("In-Reply-To")), "References": mail.get("References"),
        "Newsgroups": mail.get("Newsgroups"), "X-FTN-SEEN-BY": mail.get("X-FTN-SEEN-BY"), "X-FTN-PATH": mail.get("X-FTN-PATH"),
        "X-FTN-MSGID": unfolded(mail, "X-FTN-MSGID"), "X-FTN-REPLY": unfolded(mail, "X-FTN-REPLY"),
        "X-FTN-CHRS": unfolded(mail, "X-FTN-CHRS"), "charset": mail.get_content_charset(),
        "body": mail.get_payload(decode=True)}
    body = b"".join(mailed(message, without_feeds(line)) + b"\n" for line in message.body)
    expected = {
        "From": mailed(message, message.by), "To": mailed(message, message.to), "Subject": mailed(message, message.subject),
        "Date": message.moment,
        "X-FTN-Date": None if message.moment else mailed(message, message.date.rstrip(b"\0")), "Message-ID": message.id,
        "In-Reply-To": message.reply, "References": mail.get("In-Reply-To"), "Newsgroups": message.tag,
        "X-FTN-SEEN-BY": message.seen, "X-FTN-PATH": message.path,
        "X-FTN-MSGID": message.id and mailed(message, message.id),
        "X-FTN-REPLY": message.reply and mailed(message, message.reply), "X-FTN-CHRS": message.label,
        "charset": "unknown-8bit" if message.charset is None else "utf-8",
        "body": re.sub(rb"(?m)^From ", b">From ", body)}
    for name, wanted in expected.items():
        if shown[name] != wanted:
            sys.exit("message %s: %s is %r, and not %r" % (message.number, name, shown[name], wanted))


def mails_of(out, folder):
    """The mails of a mailbox."""
    path = os.path.join(folder, "mailbox")
    with open(path, "wb") as file:
        file.write(out)
    box = mailbox.mbox(path, create=False)
    try:
        return list(box)
    finally:
        box.close()


def check_threads(messages, mails):
    """Each answer names the mail of the message that it answers."""
    ids = {mail["Message-ID"]: number for number, mail in enumerate(mails)}
    known = {message.id for message in messages}
    for message, mail in zip(messages, mails):
        if message.reply in known and message.reply and messages[ids[mail["In-Reply-To"]]].id != message.reply:
            sys.exit("message %d answers another one" % message.number)


def told(out):
    """How many U+FFFD the last line on standard error reports."""
    found = re.fullmatch(rb"echonet: (\d+) characters replaced by U\+FFFD\n", out)
    if out and not found:
        sys.exit("standard error has %r" % out)
    return int(found.group(1)) if found else 0


def exported(form, base):
    """The output in a form, and how many U+FFFD were reported."""
    run = subprocess.run([PROGRAM, "export", form, base], stdout=subprocess.PIPE, stderr=subprocess.PIPE)
    if run.returncode != 0:
        sys.exit("export %s ended with %d: %r" % (form, run.returncode, run.stderr))
    return run.stdout, told(run.stderr)


def made_base(messages, folder):
    """The path of a base of these messages."""
    path = os.path.join(folder, "base")
    with open(path, "wb") as file:
        file.write(making.base(0, [message.stored() for message in messages]))
    return path


def try_lines(messages, folder):
    """A whole base is read back as JSON."""
    out, lost = exported("--json", made_base(messages, folder))
    lines = out.split(b"\n")
    if lines.pop() or len(lines) != len(messages) or out.decode().count(LOST) != lost:
        sys.exit("%d lines, %d U+FFFD" % (len(lines), lost))
    for message, line in zip(messages, lines):
        check_json(message, line)


def try_mails(messages, folder):
    """A whole base is read back as a mailbox."""
    out, lost = exported("--mbox", made_base(messages, folder))
    mails = mails_of(out, folder)
    if len(mails) != len(messages) or sum(lost_in(message) for message in messages) != lost:
        sys.exit("%d mails, %d U+FFFD" % (len(mails), lost))
    for message, mail in zip(messages, mails):
        check_mail(message, mail)
    check_threads(messages, mails)


def try_base(chance, count, folder):
    """One base: all of it is read back, in both forms."""
    messages, ids = [], []
    for number in range(count):
        messages.append(Message(chance, number, ids))
        ids.append(messages[-1].id)
    try_lines(messages, folder)
    try_mails(messages, folder)


def lost_in(message):
    """How many U+FFFD the mail of a message has in its names, its subject and its body."""
    parts = [message.by, message.to, message.subject] + [without_feeds(line) for line in message.body]
    return sum(mailed(message, part).count(LOST.encode()) for part in parts)


class Real:
    """A message of a real packet, and how readers have to read it."""

    def __init__(self, number, packed, echo):
        self.number, self.to, self.by, self.subject, self.date = number, packed.to, packed.by, packed.subject, packed.date
        self.echo, self.kept, self.tag = echo, echo.kept, echo.tag.decode()
        self.seen, self.path = str(len(echo.seen)), " ".join("%d/%d" % entry for entry in echo.path)
        self.id, self.reply = reading.first_id(echo.kept), reading.first_id(echo.kept, b"\x01REPLY:")
        self.label = reading.first_id(echo.kept, b"\x01CHRS:")
        name = (self.label or b"CP437").split()[0].upper()
        name = OLD_NAMES.get(name, name)
        self.charset = name if name in CHARSETS else None
        self.body = [line for line in self.kept if not reading.is_kind(line, b"\x01")]
        self.moment = moment_of(self.date)

    def stored(self):
        """Its bytes in a base."""
        body = making.whole_body(reading.written(self.echo))
        return making.stored(1, (1, 10, 2), body, self.to, self.by, self.subject, self.date)

    text = Message.text


def moment_of(date):
    """A DateTime as a mail has it."""
    form = re.fullmatch(rb"(\d\d) (Jan|Feb|Mar|Apr|May|Jun|Jul|Aug|Sep|Oct|Nov|Dec) (\d)(\d)..(\d\d:\d\d:\d\d).", date, re.S)
    if not form:
        return None
    day, month, tens, ones, time = (part.decode() for part in form.groups())
    return "%s %s %s%s%s %s -0000" % (day, month, "19" if tens >= "8" else "20", tens, ones, time)


def try_packets(folder):
    """The real packets: a base of each. Returns how many messages they have."""
    packets, count = os.path.join(TOP, "examples", "packets"), 0
    for name in sorted(os.listdir(packets)):
        if not name.endswith(".pkt"):
            continue
        with open(os.path.join(packets, name), "rb") as file:
            packed, _, _ = reading.read_packet(file.read(), reading.MOST_SHOWN)
        said = [(each, reading.read_text(each.text)) for each in packed]
        kept = [(each, echo) for each, echo in said if isinstance(echo, reading.Echo)]
        try_mails([Real(number, each, echo) for number, (each, echo) in enumerate(kept)], folder)
        count += len(kept)
    return count


def main(words):
    """Tries bases until so many messages were read."""
    count = int(words[0]) if words else 10000
    chance, left = random.Random(1), count
    with tempfile.TemporaryDirectory() as folder:
        real = try_packets(folder)
        while left:
            size = min(left, chance.randrange(1, MOST))
            try_base(chance, size, folder)
            left -= size
    print("export.py: %d messages read as JSON and as mails, %d of real packets as mails" % (count, real))


if __name__ == "__main__":
    main(sys.argv[1:])
