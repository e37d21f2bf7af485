"""A station: its folders, its own address, its peers, its locks and its log."""
from __future__ import annotations

import fcntl
import os
import re
import sys
import time
from os.path import exists, isdir, join, lexists
from typing import IO, Optional

from fidonet.addresses import Address, address_of

from .calls import kept_locks
from .disk import Disk
from .faults import Status, Stopped
from .peers import Peers, peers_at

CONTROL = re.compile(r"[\x00-\x1f\x7f]")
FOLDERS = ("INBOUND", "OUTBOUND", "PACKETS")
SETTINGS = (*FOLDERS, "CHARSET", "RESCANNED")
PLAIN_SETTING = re.compile(r"[ \t]*(INBOUND|OUTBOUND|PACKETS|CHARSET|RESCANNED)=(?:([\w./:@%+,-]*)|'([^']*)'|\"([^\"$`\\]*)\")[ \t]*(?:#.*)?")


class Station:
    """The folder of a station. `load` reads its files."""

    def __init__(self, folder: str, disk: Optional[Disk] = None) -> None:
        if CONTROL.search(folder) or CONTROL.search(os.path.realpath(folder)):
            raise Stopped(Status.COMMAND, "control byte in the path of the station")
        if not isdir(folder):
            raise Stopped(Status.COMMAND, "no folder %s" % folder)
        self.given = folder
        self.folder = os.path.realpath(folder)
        self.disk = disk or Disk()
        self.settings = settings_of(self.at("settings")) if lexists(self.at("settings")) else {}
        self.inbound, self.outbound, self.packets = self.folders()
        self.has_put_aside = False
        self.has_log = True
        self.is_run = False  # then what needs a hand goes to standard error
        self.is_quiet = False  # then only that is printed
        self.locks: list[IO[bytes]] = []
        self.areas: dict[str, list[Address]] = {}
        self.own_word = ""
        self.peers = Peers()
        self.point_places: set[tuple[int, int]] = set()
        self.stated: dict[str, int] = {}  # how many messages a scan or an answer said that a packet of scanned/ has

    def at(self, *names: str) -> str:
        """A path below the station."""
        return join(self.folder, *names)

    def folders(self) -> list[str]:
        """The folders that the mailer shares, of `settings` or by default."""
        paths = [join(self.folder, self.settings.get(key) or key.lower()) for key in FOLDERS]
        for path in paths:
            if CONTROL.search(path):
                raise Stopped(Status.COMMAND, "control byte in the path of a folder")
        return paths

    def load(self) -> None:
        """Reads `links` and `peers`."""
        own = self.read_links()
        if own is None:
            raise Stopped(Status.REFUSED, "no own address in links")
        self.own = own
        self.load_peers()
        # A station that is itself a point has another address on the net.
        self.real = self.peers.real_of.get(own, own)
        self.point_places = {fake.place() for fake in self.peers.real_of if fake != own}

    def load_peers(self) -> None:
        """Reads `peers` alone, for a run that the link file does not stop."""
        self.peers = peers_at(self.at("peers"))

    def read_links(self) -> Optional[Address]:
        """The own address, if the link file has exactly one. The areas go to `areas`."""
        with open(self.at("links"), "rb") as file:
            lines = [line.split() for line in file.read().split(b"\n")]
        owners = [words[1].decode("latin-1") if len(words) == 2 else "" for words in lines if words[:1] == [b"SYSTEM"]]
        self.areas = {}
        for words in lines:
            if words[:1] == [b"AREA"] and len(words) > 1:
                links = (address_of(word.decode("latin-1")) for word in words[2:])
                self.areas[words[1].decode("latin-1").upper()] = [link for link in links if link]
        self.own_word = owners[0] if len(owners) == 1 else ""
        return address_of(self.own_word)

    def links(self) -> set[Address]:
        """The links of all areas."""
        return {link for links in self.areas.values() for link in links}

    def is_own(self, address: Address) -> bool:
        """Whether an address of the net, or in `links`, is this station."""
        return address in (self.own, self.real)

    def flow(self, link: Address) -> str:
        """The flow file of a link of `links`, without its ending."""
        real = self.peers.real_of.get(link, link)
        folder = self.outbound if real.zone == self.own.zone else "%s.%03x" % (self.outbound, real.zone)
        boss = join(folder, "%04x%04x" % (real.net, real.node))
        return join(boss + ".pnt", "%08x" % real.point) if real.point else boss

    def lock(self, name: str, is_its_run: bool = True) -> None:
        """Waits for a lock. Its time says when its own run had it last. Programs that are called keep it."""
        file = open(self.at(name), "ab")
        self.locks.append(file)
        fcntl.flock(file, fcntl.LOCK_EX)
        if is_its_run:
            os.utime(file.fileno())
        kept_locks.append(file.fileno())

    def unlock(self) -> None:
        """Ends the locks."""
        for file in self.locks:
            kept_locks.remove(file.fileno())
            file.close()
        self.locks = []

    def log(self, line: str) -> None:
        """Adds a line to the log. If that fails the run goes on, and ends with status 3."""
        stamp = time.strftime("%Y-%m-%dT%H:%M:%SZ", time.gmtime())
        try:
            with open(self.at("log"), "ab", buffering=0) as file:
                file.write(("%s %s\n" % (stamp, line)).encode("utf-8", "backslashreplace"))
        except OSError:
            self.has_log = False

    def say(self, line: str) -> None:
        """Prints a line at once."""
        if not self.is_quiet:
            print(line, flush=True)

    def warn(self, line: str) -> None:
        """Prints a line that needs a hand: a run does so on standard error."""
        print(line, flush=True, file=sys.stderr if self.is_run else sys.stdout)

    def note(self, line: str) -> None:
        """Prints and logs a line."""
        self.say(line)
        self.log(line)

    def ending(self, has_failed: bool) -> Status:
        """The status of a run that was not refused."""
        if has_failed:
            return Status.FAILED
        if self.has_put_aside:
            return Status.HAND
        return Status.GOOD if self.has_log else Status.FAILED


def settings_of(path: str) -> dict[str, str]:
    """The folders that a file names, which the scripts read as shell. Only a file with more than plain lines needs one."""
    found = {}
    with open(path, encoding="utf-8", errors="surrogateescape") as file:
        for line in file.read().split("\n"):
            if not line.strip() or line.lstrip().startswith("#"):
                continue
            setting = PLAIN_SETTING.fullmatch(line)
            if not setting:
                return settings_by_shell(path)
            found[setting[1]] = setting[2] or setting[3] or setting[4] or ""
    return found


def settings_by_shell(path: str) -> dict[str, str]:
    """The same, read by the shell."""
    import subprocess

    script = '. "$0" > /dev/null; printf "%s\\0%s\\0%s\\0%s\\0%s" "$INBOUND" "$OUTBOUND" "$PACKETS" "$CHARSET" "$RESCANNED"'
    ran = subprocess.run(["/bin/sh", "-c", script, path], stdin=subprocess.DEVNULL, stdout=subprocess.PIPE, check=False)
    values = os.fsdecode(ran.stdout).split("\0")
    if ran.returncode or len(values) != len(SETTINGS):
        raise Stopped(Status.REFUSED, "settings cannot be read by the shell")
    return dict(zip(SETTINGS, values))


def names_in(folder: str) -> list[str]:
    """The names in a folder, in order: none, if it is not there."""
    return sorted(os.listdir(folder)) if exists(folder) else []
