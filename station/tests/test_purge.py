"""Purge by age, and what readers have still to get."""
import os
import shutil
import time
import unittest

import build
from build import END, echomail, header
from echonet_station.counts import MOST_DAYS, note_count
from echonet_station.station import Station

DAY = 86400
# A program whose `purge` only notes its words. The others are those of the real one.
NOTING = """#!/bin/sh
if [ "$1" = purge ]; then
  echo "$@" >> "$NOTED"
  echo "purged 3"
  exit 0
fi
exec "$PROGRAM" "$@"
"""


def can_purge_a_part() -> bool:
    """Whether the program knows `purge --to`."""
    ran = build.subprocess.run([build.program(), "purge", "--help"], stdout=-1, check=False)
    return b"--to" in ran.stdout


class Purging(build.StationCase):
    """A station with messages of two areas, of which one waits."""

    peers = ""
    links = "SYSTEM 2:5020/100\nNAME Me\nAREA TEST 2:5020/1\nAREA OTHER 2:5020/1\n"

    def setUp(self) -> None:
        super().setUp()
        os.makedirs(self.at("base"))
        os.makedirs(self.at("out"))
        self.file(*(echomail(number, tag=b"OTHER" if number in (2, 4) else b"TEST") for number in range(6)))
        self.echonet("scan", "--at", "now", self.at("links"), self.at("base"), self.at("out"))
        self.file(echomail(6))
        self.noted = self.at("noted")
        self.put("noting", NOTING.encode())
        os.chmod(self.at("noting"), 0o755)

    def echonet(self, *words: str) -> str:
        """Runs the program."""
        return build.subprocess.run([build.program(), *words], stdout=-1, check=True).stdout.decode()

    def file(self, *messages: bytes) -> None:
        """Files messages."""
        self.put("x.pkt", header() + b"".join(messages) + END)
        self.echonet("toss", self.at("links"), self.at("base"), self.at("x.pkt"))

    def days(self, *days: tuple[float, int], end: str = "\n") -> None:
        """Writes the file `days`: how many days ago, and how many messages."""
        now = int(time.time())
        self.put("days", ("\n".join("%d %d" % (now - ago * DAY, count) for ago, count in days) + end).encode())

    def purge(self, *words: str) -> tuple[int, str, list[str]]:
        """Purges with the noting program. Returns the status, the output, and the words of its calls without the paths."""
        if os.path.exists(self.noted):
            os.unlink(self.noted)
        env = {"NOTED": self.noted, "PROGRAM": build.program()}
        real = build.program
        build.program = lambda: self.at("noting")
        try:
            ran = self.run_tool("purge", *words, env=env)
        finally:
            build.program = real
        calls = build.content(self.noted).decode().split("\n")[:-1] if os.path.exists(self.noted) else []
        self.assertTrue(all(line.startswith("purge --explain ") for line in calls))
        return ran.returncode, (ran.stdout + ran.stderr).decode(), [" ".join(line.split(" ")[2:-2]) for line in calls]

    def test_ages(self):
        self.days((100, 2), (50, 4), (10, 5), (1, 7))
        for older, number in (("120", None), ("100", 2), ("99", 2), ("50", 4), ("11", 4), ("10", 5), ("1", 7), ("0", 7)):
            wanted = (0, "nothing is %s days old\n" % older, []) if number is None else (0, "purged 3\n", ["--to %d" % number])
            self.assertEqual(self.purge("--older", older), wanted)

    def test_words(self):
        self.days((100, 2))
        self.assertEqual(self.purge("--older=90", "--area", "test", "--area=OTHER"), (0, "purged 6\n", ["--area TEST --to 2", "--area OTHER --to 2"]))
        for words in ((), ("--older", "x"), ("--older", "-1"), ("--older",), ("--keep", "3"), ("--older", "1", "--older", "2"), ("x",)):
            status, told, calls = self.purge(*words)
            self.assertEqual((status, calls), (4, []), words)
            self.assertTrue(told)

    def test_lost_base(self):
        """A last line with more messages than there are is of a base that was lost."""
        self.days((100, 2), (10, 8))
        self.assertEqual(self.purge("--older", "90"), (0, "nothing is 90 days old\n", []))
        self.days((100, 2), (10, 8), end="")
        self.assertEqual(self.purge("--older", "90"), (0, "nothing is 90 days old\n", []))

    def test_readers(self):
        """Nothing that a reader has still to get goes."""
        self.days((100, 5))
        self.put("readers", b"TEST msg read\nOTHER jam jam\n")
        self.assertEqual(self.purge("--older", "90"), (1, "purged 3, kept 5 for TEST: read it first\n", ["--to 0"]))
        os.mkdir(self.at("read"))
        self.put("read/next", b"4\n")
        self.assertEqual(self.purge("--older", "90"), (1, "purged 3, kept 3 for OTHER: read it first\n", ["--to 2"]))
        self.assertEqual(self.purge("--older", "90", "--area", "OTHER"), (1, "purged 3, kept 2 for OTHER: read it first\n", ["--area OTHER --to 2"]))
        self.assertEqual(self.purge("--older", "90", "--area", "TEST"), (0, "purged 3\n", ["--area TEST --to 5"]))
        self.put("jam.next", b"5\n")
        self.assertEqual(self.purge("--older", "90"), (0, "purged 3\n", ["--to 5"]))
        self.put("read/next", b"1\n")  # the first message from there on is number 1
        self.assertEqual(self.purge("--older", "90"), (1, "purged 3, kept 4 for TEST: read it first\n", ["--to 1"]))

    def test_purged_unread(self):
        """A reader says once that messages are gone which it would have added."""
        self.echonet("purge", self.at("links"), self.at("base"))
        ran = self.run_tool("read", "TEST", self.at("read"))
        self.assertEqual((ran.returncode, ran.stdout.decode()), (1, "exported 1 messages, next 7\nTEST: 4 messages were purged unread\n"))
        ran = self.run_tool("read", "TEST", self.at("read"))
        self.assertEqual((ran.returncode, ran.stdout.decode()), (0, "exported 0 messages, next 7\n"))
        self.put("readers", b"OTHER msg other\nTEST jam jam\n")
        ran = self.run_tool("read", self.at("readers"))
        wanted = "OTHER: 2 messages were purged unread\nTEST: exported 1 messages, next 7\nTEST: 4 messages were purged unread\n"
        self.assertEqual((ran.returncode, ran.stdout.decode()), (1, wanted))
        self.assertEqual(self.run_tool("read", self.at("readers")).returncode, 0)

    def test_days(self):
        """A scan adds a line a day, if the base has grown."""

        def noted() -> list[tuple[int, int]]:
            note_count(Station(self.top))
            lines = [line.split(" ") for line in self.content("days").decode().split("\n") if line]
            return [(round((time.time() - int(second)) / DAY), int(count)) for second, count in lines]

        self.assertEqual(noted(), [(0, 7)])
        for before, after in (
            ([(2, 6)], [(2, 6), (0, 7)]),
            ([(2, 7)], [(2, 7)]),
            ([(0.9, 6)], [(1, 6)]),
            ([(30, 5), (2, 9)], [(0, 7)]),
            ([(ago, 1) for ago in range(MOST_DAYS + 9, 1, -1)], [(ago, 1) for ago in range(MOST_DAYS, 1, -1)] + [(0, 7)]),
        ):
            for end in ("\n", ""):
                self.days(*before, end=end)
                self.assertEqual(noted(), after, (before[:3], end))
        self.assertEqual(self.content("count"), b"7\n")

    def test_days_of_an_empty_base(self):
        """It has not grown. One that was lost begins the file anew."""
        shutil.rmtree(self.at("base"))
        os.mkdir(self.at("base"))
        note_count(Station(self.top))
        self.assertNotIn("days", self.names())
        self.days((100, 2), (10, 8))
        note_count(Station(self.top))
        self.assertRegex(self.content("days").decode(), r"\A[0-9]+ 0\n\Z")

    @unittest.skipUnless(can_purge_a_part(), "this echonet has no purge --to")
    def test_for_real(self):
        self.days((100, 5), (80, 6))
        self.put("readers", b"TEST msg read\n")
        os.mkdir(self.at("read"))
        self.put("read/next", b"3\n")
        ran = self.run_tool("purge", "--older", "90")
        self.assertEqual((ran.returncode, ran.stdout.decode()), (1, "purged 3, kept 2 for TEST: read it first\n"))
        self.assertEqual(self.run_tool("read", "TEST", self.at("read")).returncode, 0)
        ran = self.run_tool("purge", "--older", "80", "--area", "TEST")
        self.assertEqual((ran.returncode, ran.stdout.decode()), (0, "purged 2\n"))
        ran = self.run_tool("purge", "--older", "80", "--area", "NONE")
        self.assertEqual((ran.returncode, ran.stdout, ran.stderr.split(b"\n")[0]), (2, b"", b"echonet: no area NONE"))
        self.file(echomail(0), echomail(2, tag=b"OTHER"))
        self.assertIn("end 7 messages", self.echonet("list", self.at("base")))


if __name__ == "__main__":
    unittest.main()
