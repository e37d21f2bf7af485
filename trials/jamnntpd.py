"""Shows a thread through jamnntpd 1.3, and posts an article that is written there. The JAM base of `export --jam` has
15 messages, 14 of them answers. The References of each name the message that it answers. An article posted by NNTP is
posted by `post --jam`, is marked as Sent, and is not exported again. It needs the i386 build of jamnntpd: the amd64
build shows every second message of any JAM base. Without it the trial is left out with a line.
"""
import os
import shutil
import socket
import struct
import subprocess
import sys
import tempfile
import time

import jam

ANSWERS = 14


def echonet(words, body=b""):
    """What the program prints."""
    return subprocess.run([jam.PROGRAM, *words], input=body, stdout=subprocess.PIPE, check=True).stdout.decode()


def answered(number):
    """The message that an answer is to: the first seven answer the root, the others one of these."""
    return 0 if number <= 7 else number - 7


def fill(place):
    """Makes a station with the thread, and exports it."""
    with open(place + "/links", "w", encoding="ascii") as file:
        file.write("SYSTEM 1:10/1\nNAME A\nAREA TEST 1:10/2\n")
    os.mkdir(place + "/base")
    station = [place + "/links", place + "/base"]
    echonet(["post", "--area", "TEST", "--to", "All", "--from", "Ann", "--subject", "Thread", "--serial", "00000001", "--at",
             "2026-07-03T12:00:00", *station], b"Root\n")
    for number in range(1, ANSWERS + 1):
        echonet(["reply", "--from", "R%d" % number, "--serial", "%08x" % (number + 1), "--at",
                 "2026-07-03T12:00:%02d" % number, str(answered(number)), *station], b"Answer %d\n" % number)
    echonet(["export", "--jam", place + "/jam", "--area", "TEST", place + "/base"])


class Reader:
    """A connection to jamnntpd."""

    def __init__(self, port):
        for _ in range(50):
            try:
                self.file = socket.create_connection(("127.0.0.1", port)).makefile("rwb")
                break
            except OSError:
                time.sleep(0.1)
        self.line()

    def line(self):
        """The next line."""
        return self.file.readline().decode("latin-1").rstrip("\r\n")

    def ask(self, *lines):
        """Sends lines, and gives the first line of the answer."""
        self.file.write("".join(line + "\r\n" for line in lines).encode("ascii"))
        self.file.flush()
        return self.line()

    def overview(self):
        """The fields of each article."""
        self.ask("GROUP TEST")
        rows = []
        if self.ask("XOVER 1-99").startswith("224"):
            while (line := self.line()) != ".":
                rows.append(line.split("\t"))
        return rows


def check_thread(rows):
    """Each answer refers to its message."""
    ids = {row[4]: int(row[0]) - 1 for row in rows}
    right = sum(1 for row in rows if row[5] and ids.get(row[5].split()[-1]) == answered(int(row[0]) - 1))
    if len(rows) != ANSWERS + 1 or right != ANSWERS:
        sys.exit("jamnntpd.py: %d articles, %d right references" % (len(rows), right))


def check_posted(place, reader):
    """An article is posted once, and marked."""
    if not reader.ask("POST").startswith("340"):
        sys.exit("jamnntpd.py: no posting")
    told = reader.ask("From: Eve <eve@example.org>", "Newsgroups: TEST", "Subject: By news", "", "Hello", ".")
    if not told.startswith("240"):
        sys.exit("jamnntpd.py: " + told)
    words = ["post", "--jam", place + "/jam", "--area", "TEST", "--serial", "auto", "--at", "now", place + "/links", place + "/base"]
    # jamnntpd answers before it writes.
    for _ in range(50):
        posted = echonet(words)
        if posted:
            break
        time.sleep(0.1)
    again = echonet(words)
    exported = echonet(["export", "--jam", place + "/jam", "--area", "TEST", place + "/base"])
    subjects = [dict(got.fields)[6] for got in jam.Jam(place + "/jam").messages]
    last = jam.Jam(place + "/jam").messages[subjects.index(b"By news")]
    fine = posted.startswith("posted TEST 1:10/1 ") and again == "" and exported.startswith("exported 0 messages")
    if not fine or subjects.count(b"By news") != 1 or not last.attribute & jam.SENT:
        sys.exit("jamnntpd.py: %r %r %r %r" % (posted, again, exported, subjects))


def main():
    """The trial."""
    program = shutil.which("jamnntpd", path=os.environ["PATH"] + ":/usr/sbin")
    if program is None or open(program, "rb").read(5)[4:] != b"\1":
        print("jamnntpd.py: left out, there is no i386 build of jamnntpd")
        return
    with tempfile.TemporaryDirectory() as place:
        fill(place)
        for name, line in (("groups", "TEST A 1:10/1 %s/jam CP437" % place), ("allow", "127.0.0.1 AX A"), ("users", "")):
            with open("%s/%s" % (place, name), "w", encoding="ascii") as file:
                file.write(line + "\n")
        port = 20000 + struct.unpack("<H", os.urandom(2))[0] % 10000
        server = subprocess.Popen([program, "-noecholog", "-p", str(port), "-g", place + "/groups", "-a", place + "/allow", "-u",
                                   place + "/users", "-l", place + "/log"], stdout=subprocess.DEVNULL, stderr=subprocess.DEVNULL)
        try:
            reader = Reader(port)
            check_thread(reader.overview())
            check_posted(place, reader)
        finally:
            server.kill()
            server.wait()
    print("jamnntpd.py: %d of %d answers refer to their messages; a posting by NNTP is posted once" % (ANSWERS, ANSWERS))


if __name__ == "__main__":
    main()
