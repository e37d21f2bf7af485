"""Shared by the trials of base folders: stations, runs, the base file of a base, and counts of what held."""
import os
import shutil
import subprocess
import sys

from lib import making
from lib.contents import PROGRAM, content_of, write

MOMENT = "2000-01-01T00:00:00"
AREAS = [("TEST", [making.UPLINK, *making.DOWNLINKS]), ("OTHER", [making.UPLINK])]
HELD = {True: 0, False: 0}


def expect(what, held):
    """Counts what held."""
    HELD[bool(held)] += 1
    if not held:
        print("failed: " + what, file=sys.stderr, flush=True)


def run(folder, *words, given=b"", before=()):
    """Runs the program in a folder. Returns status, output and fault."""
    ended = subprocess.run([*before, PROGRAM, *words], cwd=folder, input=given, capture_output=True, timeout=120,
                           check=False)
    return ended.returncode, ended.stdout, ended.stderr


def is_orderly(ended):
    """Whether a run ended by itself, with one fault line if its status is a fault."""
    status, _, fault = ended
    if status == 0:
        return fault == b""
    return status in (2, 3) and fault.startswith(b"echonet: ") and fault.count(b"\n") == 1


def packets_in(folder):
    """The files of a folder and their bytes."""
    return {name: content_of(os.path.join(folder, name)) for name in sorted(os.listdir(folder))}


def converted(folder, base="base"):
    """The base file that `convert` makes of a base."""
    made = os.path.join(folder, "made")
    if os.path.exists(made):
        os.remove(made)
    ended = run(folder, "convert", base, "made")
    return content_of(made) if ended[0] == 0 else ended


def new_station(folder):
    """The files of a station without a base."""
    os.makedirs(os.path.join(folder, "out"))
    write(os.path.join(folder, "links"), making.link_file(making.OWN, AREAS, "Alpha"))
    write(os.path.join(folder, "faulty.links"), b"FOO\n")
    write(os.path.join(folder, "other.links"), making.link_file(making.UPLINK, [("TEST", [making.OWN])]))
    return folder


def filled_station(folder):
    """A station whose base folder has messages: some purged, some scanned, some that wait."""
    new_station(folder)
    os.mkdir(os.path.join(folder, "base"))
    for number, first in enumerate((0, 6, 12)):
        write(os.path.join(folder, "%d.pkt" % number), making.plain_packet(range(first, first + 6), 100))
    write(os.path.join(folder, "new.pkt"), making.plain_packet(range(14, 24), 100))
    steps = (("toss", "links", "base", "0.pkt"), ("scan", "--at", MOMENT, "links", "base", "out"),
             ("purge", "links", "base"), ("toss", "links", "base", "1.pkt"),
             ("scan", "--at", MOMENT, "links", "base", "out"), ("toss", "links", "base", "2.pkt"))
    for words in steps:
        ended = run(folder, *words)
        expect("%s: %r" % (words, ended), ended[0] == 0)
    for name in os.listdir(os.path.join(folder, "out")):
        os.remove(os.path.join(folder, "out", name))
    return folder


COMMANDS = {
    "post": ("post", "--area", "TEST", "--to", "All", "--from", "Ann", "--subject", "Hi", "--serial", "00000001", "--at",
             MOMENT, "links", "base"),
    "reply": ("reply", "--from", "Cid", "--serial", "00000001", "--at", MOMENT, "7", "links", "base"),
    "toss": ("toss", "links", "base", "new.pkt"),
    "scan": ("scan", "--at", MOMENT, "links", "base", "out"),
    "purge": ("purge", "links", "base"),
}


def copy_of(folder, to):
    """A copy of a station, without the note of its folder of packets: that note names the folder of the original."""
    shutil.rmtree(to, ignore_errors=True)
    path = shutil.copytree(folder, to)
    note = os.path.join(path, "base", "outbound")
    if os.path.exists(note):
        os.remove(note)
    return path


def finish(name):
    """The last line with the counts, and the status."""
    print("%s: %d passed, %d failed" % (name, HELD[True], HELD[False]))
    return 1 if HELD[False] else 0
