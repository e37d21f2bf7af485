"""Runs `read --jam` while a program posts into the same JAM base under the lock of JAM programs.

The program locks the first byte of PATH.jhr by fcntl, as JAM-001 programs do. It writes 500 messages, every other one
with an id of the station. At the same time the station posts its own messages, and `read` runs 60 times. At the
end the JAM base has each of the 500 once, marked as Sent, and each was posted once. It has each message of the
station once, and the counts are right. A run that finds the lock held changes nothing. Arguments: how many messages,
how many runs.
"""
import collections
import fcntl
import os
import struct
import subprocess
import sys
import tempfile
import threading
import time

import jam
from lib.contents import TOP

STATION = os.path.join(TOP, "station", "echonet-station")
OWN = 1 << 24


def append(path, content):
    """Appends to a file, and returns the offset."""
    with open(path, "ab") as file:
        at = file.tell()
        file.write(content)
        return at


def field(kind, content):
    """A subfield."""
    return struct.pack("<2HI", kind, 0, len(content)) + content


def write_message(path, number):
    """Adds a message, as an editor does: Local, under the lock."""
    subject = b"Post %d" % number
    fields = field(2, b"Ann") + field(3, b"All") + field(6, subject)
    if number % 2 == 0:
        fields = field(0, b"1:10/1") + fields + field(4, b"1:10/1 %08x" % (OWN + number))
    text = b"Text %d\r" % number
    with open(path + ".jhr", "r+b") as file:
        fcntl.lockf(file, fcntl.LOCK_EX, 1, 0)
        mark, created, changes, active, password, first = struct.unpack("<4s5I", file.read(24))
        entry = os.path.getsize(path + ".jdx") // 8
        at = append(path + ".jdt", text)
        now = int(time.time())
        header = struct.pack("<4s2H17I", b"JAM\0", 1, 0, len(fields), 0, jam.GONE, jam.GONE, 0, 0, 0, now, 0, 0, first + entry,
                             jam.LOCAL | jam.ECHOMAIL, 0, at, len(text), jam.GONE, 0) + fields
        place = append(path + ".jhr", header)
        append(path + ".jdx", struct.pack("<2I", jam.crc(b"All"), place))
        file.seek(0)
        file.write(struct.pack("<4s5I", mark, created, changes + 1, active + 1, password, first))


def reader(place):
    """A run of the reader."""
    words = [STATION, os.path.join(place, "one"), "read", "--jam", "TEST", os.path.join(place, "jam")]
    done = subprocess.run(words, stdout=subprocess.PIPE, stderr=subprocess.STDOUT, check=False,
                          env=dict(os.environ, ECHONET=jam.PROGRAM))
    if done.returncode != 0:
        sys.exit("read: %d\n%s" % (done.returncode, done.stdout.decode("latin-1")))


def post(place, number):
    """A posting at the station."""
    words = [jam.PROGRAM, "post", "--area", "TEST", "--to", "All", "--from", "Bob", "--subject", "Own %d" % number,
             "--serial", "%08x" % (2 * OWN + number), "--at", "now", os.path.join(place, "one", "links"),
             os.path.join(place, "one", "base")]
    subprocess.run(words, input=b"Body %d\n" % number, stdout=subprocess.DEVNULL, check=True)


def subjects(place):
    """How many times each subject is in the base."""
    words = [jam.PROGRAM, "list", "--short", os.path.join(place, "one", "base")]
    listed = subprocess.run(words, stdout=subprocess.PIPE, check=True).stdout.decode()
    return collections.Counter(
        word + " " + line.split(word + " ", 1)[1].split()[0] for line in listed.splitlines() for word in ("Post", "Own") if word + " " in line)


def is_written(kinds):
    """Whether the program wrote the message with these subfields: it has no id, or an id of the program."""
    return kinds[2] == b"Ann" and (4 not in kinds or int(kinds[4].split()[-1], 16) < 2 * OWN)


def try_held(place):
    """A run that finds the lock held changes nothing, and ends with 3."""
    path = os.path.join(place, "jam")
    files = jam.contents(path)
    words = [STATION, os.path.join(place, "one"), "read", "--jam", "TEST", path]
    with open(path + ".jhr", "r+b") as file:
        fcntl.lockf(file, fcntl.LOCK_EX, 1, 0)
        begun = time.time()
        status = subprocess.run(words, stderr=subprocess.DEVNULL, check=False).returncode
        if status != 3 or time.time() - begun < 25 or jam.contents(path) != files:
            sys.exit("a held lock: %d" % status)


def main():
    """The trial."""
    count = int(sys.argv[1]) if len(sys.argv) > 1 else 500
    runs = int(sys.argv[2]) if len(sys.argv) > 2 else 60
    with tempfile.TemporaryDirectory() as place:
        os.makedirs(os.path.join(place, "one"))
        with open(os.path.join(place, "one", "links"), "w", encoding="ascii") as file:
            file.write("SYSTEM 1:10/1\nAREA TEST 1:10/2\n")
        path = os.path.join(place, "jam")
        post(place, 0)
        reader(place)
        writer = threading.Thread(target=lambda: [write_message(path, number) for number in range(count)])
        writer.start()
        for number in range(1, runs):
            post(place, number)
            reader(place)
        writer.join()
        reader(place)
        wanted = {"Post %d" % number: 1 for number in range(count)}
        wanted.update({"Own %d" % number: 1 for number in range(runs)})
        found = subjects(place)
        if found != wanted:
            sys.exit("the base: %r" % {key: (found.get(key), wanted.get(key)) for key in set(found) | set(wanted) if found.get(key) != wanted.get(key)})
        base = jam.Jam(path)
        base.check_active()
        fields = [dict(got.fields) for got in base.messages]
        told = collections.Counter(kinds[6].decode() for kinds in fields)
        twice = {"Post %d" % number: 2 if number % 2 else 1 for number in range(count)}
        twice.update({"Own %d" % number: 1 for number in range(runs)})
        if told != twice:
            sys.exit("the JAM base: %r" % {key: (told.get(key), twice.get(key)) for key in set(told) | set(twice) if told.get(key) != twice.get(key)})
        sent = sum(1 for got, kinds in zip(base.messages, fields) if is_written(kinds) and got.attribute & jam.SENT)
        if sent != count:
            sys.exit("marked as sent: %d" % sent)
        try_held(place)
    print("jam_beside.py: %d messages of a JAM program and %d of the station, none gone and none twice" % (count, runs))


if __name__ == "__main__":
    main()
