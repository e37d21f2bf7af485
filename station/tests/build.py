"""Makes stations, packets, bundles and stored messages for the tests."""
from __future__ import annotations

import contextlib
import io
import os
import re
import shutil
import struct
import subprocess
import sys
import tempfile
import time
import unittest
import warnings
import zipfile
from os.path import abspath, dirname, exists, join
from typing import Iterator, NamedTuple, NoReturn, Optional

HERE = dirname(abspath(__file__))
STATION = dirname(HERE)
TOOL = join(STATION, "echonet-station")
sys.path.insert(0, STATION)

from echonet_station.disk import Disk  # noqa: E402
from echonet_station.station import Station  # noqa: E402

OLD = 5000  # seconds: no file of a test is still arriving, if it does not say so
DATE = b"29 Nov 26  12:00:00\0"
PEERS = "PEER 2:5020/1 PASSWORD secret PLUS\nROUTE 2:5020/1\nPOINT 2:31000/7 2:5020/100.7\n"
LINKS = "SYSTEM 2:5020/100\nNAME Me\nAREA TEST 2:5020/1 2:31000/7\n"
END = b"\0\0"
ID = re.compile(rb"MSGID: 2:5020/1 ([0-9a-f]{8})")
UPLINK = (2, 5020, 1, 0)
OWN = (2, 5020, 100, 0)


def program() -> str:
    """The program echonet."""
    return os.environ.get("ECHONET", "echonet")


def run_program(*words: str) -> str:
    """What the program prints. It has to end well."""
    return subprocess.run([program(), *words], stdout=subprocess.PIPE, check=True).stdout.decode()


def header(by=UPLINK, to=OWN, password=b"", plus=False, **words) -> bytes:
    """A header. Words by name replace those of type 2 (`zones`) and 2+ (`zones2`, `points`, `capabilities`, `swapped`)."""
    zones = words.get("zones", (by[0], to[0]))
    zones2 = words.get("zones2", (by[0], to[0]) if plus else (0, 0))
    points = words.get("points", (by[3], to[3]) if plus else (0, 0))
    capabilities = words.get("capabilities", 1 if plus else 0)
    swapped = words.get("swapped", 0x100 if plus else 0)
    net = words.get("net", by[1])
    begin = struct.pack("<12H", by[2], to[2], 2026, 10, 29, 12, 0, 0, words.get("baud", 0), 2, net, to[1])
    middle = struct.pack("<2B8s2H", 0, 0, password, *zones)
    end = struct.pack("<HHBBHHHHH4x", words.get("boss_net", 0), swapped, 0, 0, capabilities, *zones2, *points)
    return begin + middle + end


def message(text: bytes, to=b"All", by=b"Ann", subject=b"Hi", nets=(5020, 5020), nodes=(1, 100), attributes=0) -> bytes:
    """A message of a packet."""
    head = struct.pack("<7H", 2, nodes[0], nodes[1], nets[0], nets[1], attributes, 0)
    return head + DATE + to + b"\0" + by + b"\0" + subject + b"\0" + text + b"\0"


def echomail(number: int, tag=b"TEST", seen=b"5020/1 100", **fields) -> bytes:
    """A message of an area."""
    lines = (b"AREA:" + tag, b"\1MSGID: 2:5020/1 %08x" % number, b"Body %d" % number, b"--- x", b" * Origin: o (2:5020/1)")
    return message(b"".join(line + b"\r" for line in (*lines, b"SEEN-BY: " + seen, b"\1PATH: 5020/1")), **fields)


def letter(number: int, node=100, lines=b"") -> bytes:
    """A letter of netmail."""
    text = b"\1INTL 2:5020/%d 2:5020/1\r%s\1MSGID: 2:5020/1 %08x\rletter %d\r" % (node, lines, number, number)
    return message(text, to=b"Bob", nodes=(1, node), attributes=1)


def packet(*messages: bytes, password=b"secret", **words) -> bytes:
    """A packet of the uplink."""
    return header(password=password, **words) + b"".join(messages) + END


def zipped(*members: tuple[str, bytes], method=zipfile.ZIP_DEFLATED) -> bytes:
    """A zip of these members."""
    made = io.BytesIO()
    with zipfile.ZipFile(made, "w", method) as archive:
        for name, content in members:
            archive.writestr(name, content)
    return made.getvalue()


def stored(text: bytes, attributes=0x101, to=(2, 5020, 55, 0), by=OWN, names=(b"Me", b"You", b"Subject")) -> bytes:
    """A stored message N.msg."""
    places = (0, to[2], by[2], 0, by[1], to[1], to[0], by[0], to[3], by[3], 0, attributes, 0)
    return struct.pack("<36s36s72s20s13H", *names, DATE, *places) + text + b"\0"


def ids_in(content: bytes) -> list[int]:
    """The numbers of the messages in some bytes."""
    return [int(found, 16) for found in ID.findall(content)]


def put(path: str, content: bytes, age: float = OLD) -> None:
    """Makes a file that is some seconds old."""
    os.makedirs(dirname(path), exist_ok=True)
    with open(path, "wb") as file:
        file.write(content)
    moment = time.time() - age
    os.utime(path, (moment, moment))


def content(path: str) -> bytes:
    """The bytes of a file."""
    with open(path, "rb") as file:
        return file.read()


def names_in(folder: str) -> list[str]:
    """The names in a folder."""
    return sorted(os.listdir(folder)) if exists(folder) else []


def place_for_tests() -> Optional[str]:
    """A folder in memory, if there is one: it is quicker."""
    return "/dev/shm" if os.path.isdir("/dev/shm") else None


class Lines(io.StringIO):
    """Standard output of a test, with the lines that were printed."""

    def lines(self) -> list[str]:
        """All lines."""
        return self.getvalue().split("\n")[:-1]


@contextlib.contextmanager
def printed() -> Iterator[Lines]:
    """Collects what is printed."""
    out = Lines()
    with contextlib.redirect_stdout(out), contextlib.redirect_stderr(out):
        yield out


class Ran(NamedTuple):
    """How a run ended, and what it printed."""

    returncode: int
    stdout: bytes
    stderr: bytes


def be_the_tool(files, words: list[str], env: Optional[dict[str, str]]) -> NoReturn:
    """Becomes a run of the program, and ends."""
    from echonet_station.start import main

    status = 99
    warnings.simplefilter("ignore")
    try:
        for number, file in enumerate(files):
            if file is not None:
                os.dup2(file.fileno(), number)
        os.environ.update(env or {})
        os.environ["ECHONET"] = program()
        sys.stdout = open(1, "w", encoding="utf-8", errors="surrogateescape", closefd=False)
        sys.stderr = open(2, "w", encoding="utf-8", errors="backslashreplace", closefd=False)
        status = main(words)
        sys.stderr.flush()
    finally:
        os._exit(status)


class StationCase(unittest.TestCase):
    """A test with a station in a fresh folder."""

    peers = PEERS
    links = LINKS

    def setUp(self) -> None:
        self.work = tempfile.mkdtemp(prefix="station-test.", dir=place_for_tests())
        self.addCleanup(shutil.rmtree, self.work, True)
        self.top = join(self.work, "station")
        os.makedirs(join(self.top, "inbound"))
        self.put("links", self.links.encode())
        self.put("peers", self.peers.encode())

    def at(self, *names: str) -> str:
        """A path below the station."""
        return join(self.top, *names)

    def put(self, name: str, file: bytes, age: float = OLD) -> None:
        """Makes a file of the station."""
        put(self.at(name), file, age)

    def content(self, *names: str) -> bytes:
        """The bytes of a file of the station."""
        return content(self.at(*names))

    def names(self, *folder: str) -> list[str]:
        """The names in a folder of the station."""
        return names_in(self.at(*folder))

    def gate(self, disk: Optional[Disk] = None) -> tuple[int, list[str]]:
        """Runs the gate. Returns its status and its lines."""
        from echonet_station.gate import pass_gate

        with printed() as out:
            status = pass_gate(Station(self.top, disk))
        return int(status), out.lines()

    def outgoing(self, disk: Optional[Disk] = None) -> tuple[int, list[str]]:
        """Packs letters and dresses, as a scan does."""
        from echonet_station.dress import dress_all
        from echonet_station.letters import pack_letters

        with printed() as out:
            status = pack_letters(Station(self.top, disk))
            dress_all(Station(self.top, disk))
        return int(status), out.lines()

    def passed(self) -> dict[str, bytes]:
        """The packets in tossing/, by the names that they came with."""
        found = {}
        for name in self.names("tossing"):
            if name.endswith(".pkt"):
                found[self.content("tossing", name[:-4] + ".name").decode("latin-1")] = self.content("tossing", name)
        return found

    def reason(self, name: str) -> str:
        """The first line of a reason in bad/."""
        return self.content("bad", name + ".why").decode().split("\n")[0]

    def run_tool(self, *words: str, stdin=None, env: Optional[dict[str, str]] = None) -> Ran:
        """Runs a command line of the program, in a process that has its modules already."""
        with tempfile.TemporaryFile() as out, tempfile.TemporaryFile() as faults:
            child = os.fork()
            if child == 0:
                be_the_tool((stdin, out, faults), [self.top, *words], env)
            _, ended = os.waitpid(child, 0)
            out.seek(0)
            faults.seek(0)
            return Ran(os.waitstatus_to_exitcode(ended), out.read(), faults.read())
