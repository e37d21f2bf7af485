"""How long runs take, by processor time, and how much memory. A busy machine may take four times the limit: these tests find
a step that takes far too long. bench/station.py measures the limits."""
import os
import unittest
import zipfile
from typing import NamedTuple

import build
from build import END, echomail, header, message

MEGABYTE = 1 << 20
MESSAGES = 60000
SLOW = 4
PACKET_SIZE = 37 * MEGABYTE
MOST_OF_RUN = 40 * MEGABYTE


# Runs a command in a process that is small itself, since a child begins with the memory of its parent.
MEASURE = """
import os, sys
child = os.fork()
if child == 0:
    os.dup2(os.open(os.devnull, os.O_RDWR), 1)
    os.execvp(sys.argv[1], sys.argv[1:])
_, ended, used = os.wait4(child, 0)
print(ended >> 8 if ended & 255 == 0 else 99, used.ru_utime + used.ru_stime, used.ru_maxrss * 1024)
"""


class Measured(NamedTuple):
    """How a run ended, its seconds of processor time, and its memory."""

    status: int
    seconds: float
    memory: int


def measured(*words: str, compiled: str = "") -> Measured:
    """Runs a program. Modules of Python are compiled in a folder, if one is given, as they are where it is installed."""
    env = {**os.environ, "PYTHONPYCACHEPREFIX": compiled}
    if compiled:
        env.pop("PYTHONDONTWRITEBYTECODE", None)
    ran = build.subprocess.run([build.sys.executable, "-S", "-c", MEASURE, *words], stdout=-1, check=True, timeout=300, env=env)
    status, seconds, memory = ran.stdout.split()
    return Measured(int(status), float(seconds), int(memory))


class Limits(build.StationCase):
    """Large and many files, and none."""

    def large_packet(self) -> bytes:
        """A packet of 37 MB with 60,000 messages."""
        size = PACKET_SIZE // MESSAGES
        short = len(echomail(1))
        filler = b"x" * 79 + b"\r"
        body = (filler * 20)[: size - short]
        ready = [echomail(number).replace(b"--- x", body + b"--- x") for number in range(MESSAGES)]
        return header(password=b"secret") + b"".join(ready) + END

    def gate_within(self, most_seconds: float, most_memory: int) -> None:
        """Runs the gate, and compares what it took with its limits."""
        ran = measured(build.sys.executable, build.TOOL, self.top, "gate")
        self.assertEqual(ran.status, 0)
        self.assertLess(ran.seconds, SLOW * most_seconds)
        self.assertLess(ran.memory, most_memory)

    def test_nothing_to_do(self):
        """A run without mail, with the calls of `echonet` that it makes."""
        words = (build.sys.executable, build.TOOL, self.top, "run")
        compiled = os.path.join(self.work, "compiled")
        measured(*words, compiled=compiled)
        runs = [measured(*words, compiled=compiled) for _ in range(8)]
        self.assertEqual([ran.status for ran in runs], [0] * 8)
        self.assertLess(min(ran.seconds for ran in runs), SLOW * 0.15)
        self.assertNotIn("gate", self.names())

    def test_large_bundle(self):
        content = self.large_packet()
        self.put("inbound/0000ff90.su0", build.zipped(("x.pkt", content), method=zipfile.ZIP_DEFLATED))
        self.gate_within(3, MOST_OF_RUN)
        self.assertEqual(self.content("tossing", "00000001.pkt"), header() + content[58:])

    def test_large_packet(self):
        content = self.large_packet()
        self.put("inbound/a.pkt", content)
        self.gate_within(3, MOST_OF_RUN)
        self.assertEqual(self.content("tossing", "00000001.pkt"), header() + content[58:])

    def test_large_packet_that_goes(self):
        """A point is taken out of its SEEN-BY lines, and the password of its link is put in."""
        content = self.large_packet()
        self.put("peers", b"PEER 2:5020/200 PASSWORD word\n" + self.peers.encode())
        self.put("scanned/2.5020.200.5.pkt", content.replace(b"SEEN-BY: 5020/1 100", b"SEEN-BY: 5020/1 100 31000/7"))
        ran = measured(build.sys.executable, build.TOOL, self.top, "dress")
        self.assertEqual((ran.status, self.content("scanned", "2.5020.200.5.pkt")[58:]), (0, content[58:]))
        self.assertLess(ran.memory, MOST_OF_RUN)

    def test_large_packet_with_letters(self):
        text = message(b"hello\r" * 100)
        content = header(password=b"secret") + b"".join(echomail(number) + (text if number % 100 == 0 else b"") for number in range(20000)) + END
        self.put("inbound/a.pkt", content)
        self.gate_within(3, 64 * MEGABYTE)
        self.assertEqual(len(self.names("netmail")), 1)

    def test_many_packets(self):
        for number in range(200):
            self.put("inbound/%03d.pkt" % number, build.packet(echomail(number)))
        self.gate_within(1, 64 * MEGABYTE)
        self.assertEqual(len(self.passed()), 200)

    def test_status_of_many_areas(self):
        tags = ["AREA%03d" % number for number in range(100)]
        self.put("links", ("SYSTEM 2:5020/100\n" + "".join("AREA %s 2:5020/1\n" % tag for tag in tags)).encode())
        os.makedirs(self.at("base"))
        self.put("inbound/a.pkt", build.packet(*(echomail(number, tag=tag.encode()) for number, tag in enumerate(tags))))
        self.assertEqual(self.run_tool("toss").returncode, 0)
        listed = measured(build.program(), "list", "--areas", self.at("base"))
        ran = measured(build.sys.executable, build.TOOL, self.top, "status")
        self.assertEqual((listed.status, ran.status), (0, 0))
        self.assertLess(ran.seconds - listed.seconds, SLOW * 0.25)  # a program that is checked while it runs lists slowly


if __name__ == "__main__":
    unittest.main()
