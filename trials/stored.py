"""Reads the output of `export --msg` with a reader of stored messages that is written from FTS-0001 only.

The bases are random from a seed. Names, subjects and lines have any bytes. Messages are from here and from elsewhere,
with and without an origin line. The bases are exported at once, in pieces, and after a stopped run. Each time there
are the same files, and the reader reads each message unchanged. Argument: how many messages.
"""
import os
import struct
import subprocess
import sys

import export
from lib import making
from lib.contents import PROGRAM
from jam import write_base

AREA = b"AREA:TEST\r"


def run(*words):
    """What the program prints."""
    done = subprocess.run([PROGRAM, *words], stdout=subprocess.PIPE, stderr=subprocess.PIPE, check=False)
    if done.returncode:
        sys.exit("%r: %r" % (words, done.stderr))
    return done.stdout.decode()


class Stored:
    """A stored message, parsed by FTS-0001."""

    def __init__(self, content):
        self.by, self.to, self.subject = (
            content[begin:end].split(b"\0")[0] for begin, end in ((0, 36), (36, 72), (72, 144)))
        self.date = content[144:164]
        (self.read, self.to_node, self.node, self.cost, self.net, self.to_net, self.to_zone, self.zone, self.to_point,
         self.point, self.reply_to, self.attribute, self.next_reply) = struct.unpack("<13H", content[164:190])
        self.text, self.rest = content[190:].split(b"\0", 1)


def check(message, content):
    """A file is the message."""
    read = Stored(content)
    named = (message.by, message.to, message.subject, message.date)
    if (read.by, read.to, read.subject, read.date) != named:
        sys.exit("message %d: %r, and not %r" % (message.number, (read.by, read.to, read.subject, read.date), named))
    address = message.origin or message.sender or (0, 0, 0)
    numbers = (read.zone, read.net, read.node, read.attribute)
    if numbers != (*address, 0 if message.sender else 264 if message.scanned else 256):
        sys.exit("message %d: numbers %r" % (message.number, numbers))
    if any((read.read, read.to_node, read.cost, read.to_net, read.to_zone, read.to_point, read.point, read.reply_to,
            read.next_reply)) or read.rest:
        sys.exit("message %d: a number, or bytes behind the text" % message.number)
    if read.text != message.written[len(AREA):]:
        sys.exit("message %d: %r, and not %r" % (message.number, read.text, message.written))


def made(chance, number, ids):
    """A random message, with its expected form."""
    message = export.Message(chance, number, ids)
    message.scanned = False
    message.sender = chance.choice([None, (1, 10, 2), (65535, 1, 65534)])
    message.origin = chance.choice([None, (2, 5020, 1042)])
    if message.origin:
        message.kept = message.kept + [b" * Origin: a (b) (2:5020/1042.7@fidonet)"]
    message.written = making.text(b"TEST", message.kept, [(10, 1), (10, 2)], [(10, 2)])
    message.content = making.stored(
        1 if message.sender else 0, message.sender or (0, 0, 0), making.whole_body(message.written), message.to,
        message.by, message.subject, message.date)
    return message


def files_of(folder):
    """The stored messages of a folder, in order."""
    names = sorted((int(name[:-4]), name) for name in os.listdir(folder) if name.endswith(".msg"))
    if [number for number, _ in names] != list(range(2, 2 + len(names))):
        sys.exit("numbers: %r" % names)
    contents = []
    for _, name in names:
        with open(os.path.join(folder, name), "rb") as file:
            contents.append(file.read())
    return contents


def add(folder, base, first, count, end):
    """Exports the messages from one on."""
    os.makedirs(folder, exist_ok=True)
    told = run("export", "--msg", folder, "--area", "test", "--from", str(first), base)
    if told != "exported %d messages, next %d\n" % (count, end):
        sys.exit("exported: %r" % told)


def try_base(chance, place, count):
    """A base, and its files made in three ways."""
    messages = []
    for number in range(count):
        messages.append(made(chance, number, [message.id for message in messages]))
    cut = chance.randrange(count)
    for message in messages[:chance.randrange(cut + 1)]:
        message.scanned = True
    base = os.path.join(place, "base")
    write_base(base, messages)
    once, pieces, again = (os.path.join(place, name) for name in ("once", "pieces", "again"))
    add(once, base, 0, count, count)
    contents = files_of(once)
    for message, content in zip(messages, contents, strict=True):
        check(message, content)
    write_base(base, messages[:cut])
    add(pieces, base, 0, cut, cut)
    write_base(base, messages)
    add(pieces, base, cut, count - cut, count)
    if files_of(pieces) != contents:
        sys.exit("in pieces other files come")
    os.makedirs(again)
    for number, content in enumerate(contents[:cut], 2):
        with open(os.path.join(again, "%d.msg" % number), "wb") as file:
            file.write(content)
    with open(os.path.join(again, "%d.msg.~msg~.new" % (cut + 2)), "wb") as file:
        file.write(contents[cut][:chance.randrange(len(contents[cut]))])
    add(again, base, 0, count - cut, count)
    if files_of(again) != contents:
        sys.exit("after a stopped run other files come")


def main():
    """Bases of a hundred messages."""
    count = int(sys.argv[1]) if len(sys.argv) > 1 else 1000
    making.try_hundreds(count, try_base)
    print("stored.py: %d messages exported as files, each read as what it is" % count)


if __name__ == "__main__":
    main()
