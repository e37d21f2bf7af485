"""Answers the messages that `export` wrote, as people do: with mails of Python's email and in mutt's form, posted by
`post --mail`, and with `reply`.

The bases are random from a seed, as in export.py. The base has to contain each answer, byte for byte as making.py
writes it. It is written from the answered message and the answer's text, in Python's own codec of the charset. An
answer has to be refused if the charset lacks a character of it, or if a name or a subject is too long. Argument: how
many messages are answered.
"""
import email.header
import email.message
import email.policy
import email.utils
import os
import random
import subprocess
import sys
import tempfile

import export
from lib import making
from lib.contents import PROGRAM

CODECS = {
    "ASCII": "ascii", "CP437": "cp437", "CP850": "cp850", "CP866": "cp866", "CP1251": "cp1251", "KOI8-R": "koi8_r",
    "LATIN-1": "latin_1", "UTF-8": "utf_8"}
LEVELS = {"ASCII": "1", "UTF-8": "4"}
LETTERS = {
    "ASCII": "", "CP437": "éüÄñß░█", "CP850": "éÁÕþ¾", "CP866": "ЖЯжёЄ", "CP1251": "Жя№Љ€", "KOI8-R": "Жяё═",
    "LATIN-1": "éÿþ¼", "UTF-8": "éЖ中\U0001f600"}
FORMS = (("us-ascii", "7bit"), ("utf-8", "8bit"), ("utf-8", "quoted-printable"), ("utf-8", "base64"),
         ("iso-8859-1", "quoted-printable"), ("koi8-r", "8bit"), ("windows-1251", "base64"), ("cp866", "8bit"))
LINKS = making.link_file((1, 10, 1), [("TEST", [(1, 10, 2)])])
MARKS = ",:;()@\"\\"
LONGEST_NAME, LONGEST_SUBJECT, MOST = 35, 71, 20


def some_text(chance, letters, most, marks=""):
    """A text that a field keeps unchanged: no blank at an end, and no two together."""
    words = ["".join(chance.choice("abc XYZ019._'-" + marks + letters * 3) for _ in range(chance.randrange(1, 9)))
             for _ in range(chance.randrange(1, 5))]
    return " ".join(" ".join(words).split())[:most].strip() or "x"


def encoded(text, charset):
    """A text in the bytes of a charset, or None if the charset lacks a character."""
    try:
        return text.encode(CODECS[charset])
    except UnicodeEncodeError:
        return None


class Letter:
    """An answer to a message that was exported: its author's text, and its form."""

    def __init__(self, chance, message, mail):
        self.message, self.mail = message, mail
        self.charset = chance.choice(list(CODECS))
        letters = LETTERS[chance.choice([self.charset] * 8 + ["ASCII", "UTF-8"])]
        # Python writes a name with a comma without quotes, so names have none of these marks.
        self.by, self.subject = some_text(chance, letters, 40), "Re: " + some_text(chance, letters, 70, MARKS)
        self.lines = [some_text(chance, letters, 70, MARKS) for _ in range(chance.randrange(1, 5))] + ["", "-- ", "end."]
        self.form = self.chosen(chance)
        self.ends = chance.choice((email.policy.compat32, email.policy.compat32.clone(linesep="\r\n")))

    def chosen(self, chance):
        """A charset and an encoding in which the body can be sent."""
        able = [form for form in FORMS if self.is_sayable(form[0])]
        return chance.choice(able)

    def is_sayable(self, name):
        try:
            self.body().encode(name)
        except UnicodeEncodeError:
            return False
        return True

    def body(self):
        return "".join(line + "\n" for line in self.lines)

    def by_python(self):
        """The mail as Python writes it."""
        made = email.message.EmailMessage()
        made["From"] = email.utils.formataddr((self.by, "ann@example.org"))
        made["Subject"] = self.subject
        made["Newsgroups"] = self.mail["Newsgroups"]
        made["In-Reply-To"] = self.mail["Message-ID"]
        made.set_content(self.body(), charset=self.form[0], cte=self.form[1])
        # The other header is that of the answered mail.
        front = b"To: " + str(self.mail["From"]).encode() + b"\n"
        return (front + made.as_bytes()).replace(b"\n", self.ends.linesep.encode())

    def by_mutt(self):
        """The mail as mutt writes it: encoded words in short lines, the body unchanged."""
        name = email.header.Header(self.by, "utf-8", header_name="From").encode()
        subject = email.header.Header(self.subject, "utf-8", header_name="Subject").encode()
        head = ["Date: Fri, 3 Jul 2026 12:34:56 +0000", "From: %s <ann@example.org>" % name, "To: " + str(self.mail["From"]),
                "Newsgroups: " + self.mail["Newsgroups"],
                "Subject: " + subject, "Message-ID: <akXrS0Q2x@example.org>", "References: " + self.mail["Message-ID"],
                "MIME-Version: 1.0", "Content-Type: text/plain; charset=utf-8", "Content-Disposition: inline",
                "Content-Transfer-Encoding: 8bit", "In-Reply-To: " + self.mail["Message-ID"], ""]
        return "".join(line + "\n" for line in head + self.lines).encode()

    def to(self):
        """To whom the answer is, as text: the part before the `@` if the author has no name."""
        return export.decoded(self.message.charset, self.message.by) or "fido"

    def expected(self, serial):
        """The message that the base has to contain, or the fault."""
        texts = [self.to(), self.by, self.subject, self.body()]
        said = [encoded(text, self.charset) for text in texts]
        if None in said or (export.LOST in self.to() and self.charset != "UTF-8"):
            return b"echonet: bad message: not in the charset\n"
        to, by, subject, body = said
        if max(len(to), len(by)) > LONGEST_NAME or len(subject) > LONGEST_SUBJECT:
            return b"echonet: B3 FieldTooLong\n"
        lines = body.split(b"\n")[:-1]
        if max(b"".join(said)) > 127:
            lines.insert(0, ("\x01CHRS: %s %s" % (self.charset, LEVELS.get(self.charset, "2"))).encode())
        return posted(serial, self.message.id, lines, to, by, subject)


def posted(serial, reply, lines, to, by, subject):
    """A message of the base of 1:10/1 that was posted there."""
    kept = [b"\x01MSGID: 1:10/1 %08x" % serial, b"\x01REPLY: " + reply] + lines
    kept += [b"--- echonet", b" * Origin: echonet (1:10/1)"]
    return making.stored(0, (0, 0, 0), making.whole_body(making.text(b"TEST", kept, [], [])), to, by, subject)


def posting(words, content, folder):
    """Runs a command that posts. Returns its fault, or None."""
    run = subprocess.run([PROGRAM] + words + [os.path.join(folder, "links"), os.path.join(folder, "base")], input=content,
                         stdout=subprocess.PIPE, stderr=subprocess.PIPE)
    if (run.returncode == 0) == bool(run.stderr) or run.returncode not in (0, 2):
        sys.exit("%s ended with %d: %r" % (words, run.returncode, run.stderr))
    return run.stderr or None


def check(what, fault, expected, base, folder):
    """A posting was refused as expected, or the base has its message at the end. Returns the base."""
    with open(os.path.join(folder, "base"), "rb") as file:
        found = file.read()
    if isinstance(expected, bytes) and expected.startswith(b"echonet: "):
        if fault != expected or found != making.base(0, base):
            sys.exit("%s: %r, and not %r" % (what, fault, expected))
        return base
    if fault is not None or found != making.base(0, base + [expected]):
        sys.exit("%s: %r\n%r" % (what, fault, expected))
    return base + [expected]


def asked(serial):
    return ["--serial", "%08x" % serial, "--at", making.STAMP]


def answer_by_mail(chance, message, mail, serial, base, folder):
    """One answer by a mail."""
    letter = Letter(chance, message, mail)
    content = letter.by_mutt() if chance.random() < 0.3 else letter.by_python()
    words = ["post", "--mail", "--charset", letter.charset] + asked(serial)
    fault = posting(words, content, folder)
    return check((words, content), fault, letter.expected(serial), base, folder), fault


def answer_by_number(chance, message, serial, base, folder):
    """One answer by `reply`, byte for byte."""
    by, line = some_text(chance, "é", LONGEST_NAME // 2).encode(), export.some_bytes(chance, 60).replace(b"\n", b"")
    line = b"x" + line
    words = ["reply", "--from=" + by.decode()] + asked(serial) + [str(message.number)]
    fault = posting(words, line + b"\n", folder)
    before = b"" if message.subject[:3].lower() == b"re:" else b"Re: "
    subject = (before + message.subject)[:LONGEST_SUBJECT] if before else message.subject
    return check(words, fault, posted(serial, message.id, [line], message.by, by, subject), base, folder)


def try_base(chance, count, folder):
    """One base: each of its messages is answered in both ways. Returns how many mails were refused."""
    messages, ids, refused = [], [], 0
    while len(messages) < count:
        message = export.Message(chance, len(messages), ids)
        if message.charset is not None:
            messages.append(message)
            ids.append(message.id)
    base = [message.stored() for message in messages]
    out, _ = export.exported("--mbox", export.made_base(messages, folder))
    with open(os.path.join(folder, "links"), "wb") as file:
        file.write(LINKS)
    for message, mail in zip(messages, export.mails_of(out, folder)):
        base, fault = answer_by_mail(chance, message, mail, 2 * message.number + 1, base, folder)
        refused += fault is not None
        base = answer_by_number(chance, message, 2 * message.number + 2, base, folder)
    return refused


def main(words):
    """Answers so many messages."""
    count = int(words[0]) if words else 1000
    chance, left, refused = random.Random(1), count, 0
    with tempfile.TemporaryDirectory() as folder:
        while left:
            size = min(left, chance.randrange(1, MOST))
            refused += try_base(chance, size, folder)
            left -= size
    print("answers.py: %d messages answered by mail, %d of them refused, and as many by reply" % (count, refused))


if __name__ == "__main__":
    main(sys.argv[1:])
