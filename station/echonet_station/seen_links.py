"""The links that mail took, as link files of net/ for the systems that have no other one there. And the command `net`."""
from __future__ import annotations

import contextlib
import os
import shutil
import subprocess
import sys
import tempfile
import time
from os.path import dirname, isfile, join, realpath
from typing import Optional

from .calls import program
from .counts import DAY, count_of, days_of
from .faults import Status, Stopped
from .link_lines import owner_of
from .net_files import FOLDER, SEEN, paths_in
from .station import Station, names_in
from .whole_files import content_of, replace

DAYS = 60
COUNT = "net.count"  # how many messages the base had when the links were last looked for


def tool() -> Optional[str]:
    """The tool `links-seen`: beside this program, or on the PATH."""
    place = dirname(dirname(realpath(__file__)))
    for path in (join(place, "tools", "links-seen"), join(dirname(place), "tools", "links-seen")):
        if isfile(path):
            return path
    return shutil.which("links-seen")


def first_of(station: Station, days: int, now: int) -> int:
    """The number of the first message that may have arrived in the last days. Without a line so old it is that of the first
    one."""
    old = [count for second, count in days_of(station, now) if second <= time.time() - days * DAY]
    return old[-1] if old else 0


def seen_in(station: Station, now: int) -> dict[str, bytes]:
    """The files that `links-seen` makes of the mail of the last days, by their names."""
    found = tool()
    if found is None:
        raise Stopped(Status.FAILED, "cannot use links-seen")
    day = time.strftime("%Y-%m-%d", time.gmtime(time.time() - DAYS * DAY))
    top = tempfile.mkdtemp(prefix="echonet.")
    try:
        folder = join(top, "seen")
        words = [sys.executable, found, "--since", day, folder, "--own", str(station.own), "json:-"]
        export = [program(), "export", "--json", "--from", str(first_of(station, DAYS, now)), station.at("base")]
        with subprocess.Popen(export, stdin=subprocess.DEVNULL, stdout=subprocess.PIPE, stderr=subprocess.DEVNULL) as source:
            ran = subprocess.run(words, stdin=source.stdout, stdout=subprocess.DEVNULL, stderr=subprocess.PIPE, check=False)
            if source.stdout:
                source.stdout.close()
        if ran.returncode or source.returncode:
            raise Stopped(Status.FAILED, "links-seen: %s" % os.fsdecode(ran.stderr).strip().split("\n")[-1])
        return {name: content_of(join(folder, name)) for name in names_in(folder)}
    finally:
        shutil.rmtree(top, ignore_errors=True)


def look(station: Station, now: int) -> None:
    """Writes the links that mail took. Files of systems that no mail shows any more go."""
    disk, folder = station.disk, station.at(FOLDER)
    others = [path for path in paths_in(station) if not SEEN.fullmatch(path[len(folder) + 1 :])]
    known = {owner_of(content_of(path)) for path in others} | {station.own}
    found = {"seen." + name: text for name, text in seen_in(station, now).items() if owner_of(text) not in known} if now else {}
    if found:
        disk.make_folder(folder)
    for name, text in sorted(found.items()):
        if content_of(join(folder, name)) != text:
            put(station, join(folder, name), text)
    for name in names_in(folder):
        if SEEN.fullmatch(name) and name not in found:
            disk.unlink(join(folder, name))
    if names_in(folder):
        disk.sync(folder)
    replace(disk, station.at(COUNT), b"%d\n" % now)


def put(station: Station, path: str, text: bytes) -> None:
    """Makes a file of net/. Until it is whole it lies beside the folder, since each file there is a link file."""
    new = station.at("net.new")
    station.disk.write(new, text)
    station.disk.rename(new, path)


def look_if_grown(station: Station) -> None:
    """The same, if messages came since, or the base was lost. Without the tool links are judged by the files that are there."""
    now = count_of(station)
    before = content_of(station.at(COUNT)).strip()
    if now is not None and now != (int(before) if before.isdigit() else 0):
        with contextlib.suppress(Stopped):
            look(station, now)


def net(station: Station, _: list[str]) -> int:
    """The command `net`. The runs that look at the links, too, wait for it."""
    station.lock("scan.lock", is_its_run=False)
    station.load()
    now = count_of(station)
    if now is None:
        raise Stopped(Status.REFUSED, "the base cannot be read")
    look(station, now)
    names = [path[len(station.at(FOLDER)) + 1 :] for path in paths_in(station)]
    seen = sum(SEEN.fullmatch(name) is not None for name in names)
    station.say("net: %d files, %d seen" % (len(names) - seen, seen))
    return Status.GOOD
