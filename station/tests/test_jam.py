"""JAM bases: messages as an editor writes them, and runs that are stopped after they posted."""
import os
import struct
import time
import unittest
import zlib

import build
from echonet_station.disk import Disk
from echonet_station.jam_lock import jam_lock
from echonet_station.jam_outbox import Outbox, mark_sent, small
from echonet_station.station import Station
from fidonet import jam

ECHOMAIL = 0x01000000


def field(kind: int, content: bytes) -> bytes:
    """A subfield."""
    return struct.pack("<2HI", kind, 0, len(content)) + content


def add_message(path: str, by: bytes, subject: bytes, text: bytes, found: bytes = b"") -> None:
    """Adds a message that is Local."""
    fields = field(jam.BY, by) + field(jam.TO, b"All") + field(jam.SUBJECT, subject) + (field(jam.MSGID, found) if found else b"")
    with open(path + ".jdt", "ab") as file:
        at = file.tell()
        file.write(text)
    with open(path + ".jhr", "r+b") as file:
        mark, created, changes, active, password, first = struct.unpack("<4s5I", file.read(24))
        number = first + os.path.getsize(path + ".jdx") // 8
        place = file.seek(0, os.SEEK_END)
        numbers = (len(fields), 0, jam.GONE, jam.GONE, 0, 0, 0, int(time.time()), 0, 0, number, jam.LOCAL | ECHOMAIL, 0, at, len(text), jam.GONE, 0)
        file.write(jam.MARK + struct.pack("<17I", *numbers) + fields)
        file.seek(0)
        file.write(struct.pack("<4s5I", mark, created, changes + 1, active + 1, password, first))
    with open(path + ".jdx", "ab") as file:
        file.write(struct.pack("<2I", zlib.crc32(b"all"), place))


def subject_of(message: jam.Message) -> bytes:
    """The subject of a message."""
    return jam.first_fields(message)[jam.SUBJECT]


class Stopped(build.StationCase):
    """A run that was stopped between the posting and the marks."""

    peers = ""

    def setUp(self) -> None:
        super().setUp()
        os.makedirs(self.at("base"))
        self.put("settings", b"CHARSET=CP866\n")
        self.path = self.at("jam")
        self.assertEqual(self.run_tool("read", "--jam", "TEST", self.path).returncode, 0)
        add_message(self.path, b"Ann", b"One", "Привет\r".encode())

    def count(self) -> int:
        """How many messages the base has."""
        ran = build.subprocess.run([build.program(), "list", "--areas", self.at("base")], stdout=-1, check=True)
        return int(ran.stdout.decode().split("end ")[1].split(" ")[0])

    def test_marks(self):
        """The next run marks what was posted, and posts it once."""
        Outbox(Station(self.top), self.path).write_small()
        words = ("post", "--jam", small(self.path), "--area", "TEST", "--serial", "auto", "--at", "now", self.at("links"), self.at("base"))
        build.subprocess.run([build.program(), *words], stdout=-3, check=True)
        add_message(self.path, b"Ann", b"Two", b"plain\r")
        before = struct.unpack_from("<I", build.content(self.path + ".jhr"), jam.CHANGES_AT)[0]
        self.assertEqual(self.run_tool("read", "--jam", "TEST", self.path).returncode, 0)
        self.assertEqual(self.count(), 2)
        with jam.Base(self.path) as base:
            marks = [message.numbers[jam.ATTRIBUTE] & jam.SENT for _, _, message in base.numbered()]
        self.assertEqual(marks[:2], [jam.SENT, jam.SENT])
        self.assertGreater(struct.unpack_from("<I", build.content(self.path + ".jhr"), jam.CHANGES_AT)[0], before)

    def test_lock(self):
        """It is held as long as it has to be, also while the base is opened and closed."""
        held = "import fcntl, sys; fcntl.lockf(open(sys.argv[1], 'r+b'), fcntl.LOCK_EX | fcntl.LOCK_NB, 1, 0)"
        words = [build.sys.executable, "-c", held, self.path + ".jhr"]
        with jam_lock(self.path + ".jhr"):
            mark_sent(Disk(), self.path)
            Outbox(Station(self.top), self.path)
            self.assertEqual(build.subprocess.run(words, stderr=-3, check=False).returncode, 1)
        self.assertEqual(build.subprocess.run(words, stderr=-3, check=False).returncode, 0)

    def test_small_base_in_part(self):
        """One that was not finished is removed."""
        Outbox(Station(self.top), self.path).write_small()
        os.unlink(small(self.path) + ".jhr")
        mark_sent(Disk(), self.path)
        self.assertEqual([name for name in self.names() if ".post" in name], [])
        self.assertEqual(self.run_tool("read", "--jam", "TEST", self.path).returncode, 0)
        self.assertEqual(self.count(), 1)


if __name__ == "__main__":
    unittest.main()
