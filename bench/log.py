"""How long a posting takes on a base folder whose log has many records: processor time, time and memory, the middle
one of three runs. The other rows are the same with a log of one record, and a plain sum over the bytes of the log.

`convert` makes the folder. Then its log is written again by docs/FORMATS.md, with a record for each message, as if
each had its own commit. Arguments: how many messages, by default 1,000 to 1,000,000. ECHONET names the program, by
default bin/echonet.
"""
import os
import struct
import subprocess
import sys
import tempfile
import time

TOP = os.path.dirname(os.path.dirname(os.path.abspath(__file__)))
sys.path.insert(0, os.path.join(TOP, "trials"))
from lib import making
from lib.contents import read, write

PROGRAM = os.environ.get("ECHONET", os.path.join(TOP, "bin", "echonet"))
ROUNDS = 3
RECORD = 50
BODY = 100
STAMP = "2026-07-03T12:34:56"


def make_folder(place, count):
    """A base folder of so many messages."""
    write(os.path.join(place, "made"), making.plain_base(range(count), BODY, count))
    folder = os.path.join(place, "base")
    os.mkdir(folder)
    subprocess.run([PROGRAM, "convert", os.path.join(place, "made"), folder], check=True, capture_output=True)
    os.remove(os.path.join(place, "made"))
    return folder


def long_log(folder):
    """Replaces the log of a folder by one with a record for each of its messages."""
    last = read(os.path.join(folder, "log"))[-RECORD - 1:-1]
    gate, messages, keys, cursor, number = struct.unpack("<BQQQB", last[:26])
    assert gate == 1
    entries = read(os.path.join(folder, "keys.%d" % number))[:keys]
    ends = [begin for begin, _ in struct.iter_unpack("<QQ", entries)][1:] + [messages]
    records = [
        struct.pack("<BQQQB", 1, end, 16 * (i + 1), min(cursor, i + 1), number) + last[26:]
        for i, end in enumerate(ends)]
    return b"".join(records) + b"\0"


def posted(place, folder, serial):
    """The processor time, time and kilobytes of a posting."""
    words = ["post", "--area", "TEST", "--to", "x", "--from", "x", "--subject", "x", "--serial", "%08x" % serial,
             "--at", STAMP, os.path.join(place, "links"), folder]
    told = subprocess.run(
        [sys.executable, "-S", "-E", os.path.join(TOP, "trials", "lib", "running.py"), PROGRAM, *words],
        capture_output=True, check=True, text=True).stdout
    status, processor, seconds, kilobytes, fault = told.split(" ", 4)
    assert status == "0", fault
    return float(processor), float(seconds), int(kilobytes)


def row(place, folder, name, serials):
    """Prints the middle one of three postings, by its processor time."""
    rows = sorted(posted(place, folder, serial) for serial in serials)
    print("%-24s processor %6.3f s, %6.3f s, %7d kB" % (name, *rows[len(rows) // 2]), flush=True)


def measure(count):
    """The rows of a folder of so many messages."""
    with tempfile.TemporaryDirectory(dir=os.environ.get("FOLDER")) as place:
        write(os.path.join(place, "links"), making.link_file((1, 10, 1), [("TEST", [(1, 10, 2)])]))
        folder = make_folder(place, count)
        row(place, folder, "%d, short log" % count, range(0xf0000000, 0xf0000000 + ROUNDS))
        log = long_log(folder)
        write(os.path.join(folder, "log"), log)
        row(place, folder, "%d, a record each" % count, range(0xf1000000, 0xf1000000 + ROUNDS))
        begin = time.process_time()
        sum(log)
        print("a sum over its %d bytes, by Python %.3f s" % (len(log), time.process_time() - begin))


if __name__ == "__main__":
    for words in sys.argv[1:] or ["1000", "100000", "1000000"]:
        measure(int(words))
