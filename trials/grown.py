"""Tries grown inputs, each at two sizes, of which one is twice the other. Each run ends by itself without a crash. It
takes at most a fixed memory for each byte of its input. At twice the size it takes at most 2.5 times the processor
time. Arguments: the greater size in bytes of the inputs that have no smaller limit (64,000,000), how many rows to try
at once (1), and a part of a row's name, to try only some.
"""
import multiprocessing
import os
import shutil
import subprocess
import sys
import tempfile
import time

from lib import growing, making, running
from lib.contents import PROGRAM, TOP

MOST_RATIO = 2.5
# With less than these seconds a ratio means nothing.
LEAST_SECONDS = 0.5
# What the program may take besides the memory for each byte of its input.
LEAST_KILOBYTES = 16_384
# So many bytes of memory for each byte of the input.
MOST_BYTES = {"show": 4, "hex": 4, "toss": 24, "base": 24, "nodelist": 64, "check": 32, "picture": 32,
              "replay": 64, "post": 32}
# And of `replay` for each packet that it makes, whatever its texts.
MOST_OF_PACKET = 256
HUB_LINKS = 2000
SMALL_LIMIT = 1_048_000


class Row:
    """A kind of input, the command that runs on it, and the result."""

    def __init__(self, command, name, make, size, words, given=False, packets=0):
        self.command, self.name, self.make, self.size = command, name, make, size
        self.words, self.given, self.packets = words, given, packets


def rows(size):
    """All rows."""
    stamp = ("--at", making.STAMP)
    for name, make in growing.TEXTS.items():
        yield Row("show", name, lambda size, make=make: growing.four_texts(make, size), size, ("show", "input"))
        yield Row("toss", name, lambda size, make=make: growing.four_texts(make, size), size,
                  ("toss", "1.links", "base", "input"))
    for name, make in growing.PACKETS.items():
        yield Row("show", name, make, size, ("show", "input"))
        yield Row("toss", name, make, size, ("toss", "1.links", "base", "input"))
    yield Row("hex", "tiny messages", lambda size: growing.PACKETS["tiny messages"](size // 2).hex().encode(), size,
              ("show", "--hex", "input"))
    for name, make in growing.BASES.items():
        yield Row("base", name + ", purged", make, size, ("purge", "1.links", "input"))
        yield Row("base", name + ", scanned", make, size, ("scan", *stamp, "1.links", "input", "out"))
        yield Row("base", name + ", posted to", make, size, (*POSTING, "1.links", "input"))
    for name, make in growing.NODELISTS.items():
        yield Row("nodelist", name, make, size, ("nodelist", "input"))
        yield Row("nodelist", name + ", looked through", make, size, ("nodelist", "--find", "1:1/2", "input"))
    small = min(size, SMALL_LIMIT)
    for name, make in growing.LINKS.items():
        yield Row("check", name, make, small, ("check", "TEST", "input"))
        yield Row("picture", name, make, small, ("picture", "TEST", "input"))
        yield Row("post", name + " in a link file", make, small, (*POSTING, "input", "base"))
    for name, make in growing.SCRIPTS.items():
        yield Row("replay", name, make, small, ("replay", "input", *CHAIN))
    yield Row("replay", "200 scans of a hub", growing.SCRIPTS["postings and scans"], 6000, ("replay", "input", "hub.links"),
              packets=200 * HUB_LINKS)
    for name, make in growing.BODIES.items():
        yield Row("post", name, make, small, (*POSTING, "1.links", "base"), True)


POSTING = ("post", "--area", "TEST", "--to", "All", "--from", "Ann", "--subject", "Hi", "--serial", "00000001",
           "--at", making.STAMP)
CHAIN = [os.path.join(TOP, "examples", "nets", "chain", "%d.links" % number) for number in (1, 2, 3)]


def make_input(row, size, folder):
    """Writes the input of a row to the folder, and the other files of its command."""
    shutil.rmtree(folder, ignore_errors=True)
    os.makedirs(os.path.join(folder, "out"))
    links = making.link_file(making.OWN, [("TEST", (making.UPLINK, *making.DOWNLINKS))])
    hub = making.link_file(making.OWN, [("TEST", [(1, 20, node) for node in range(1, HUB_LINKS + 1)])])
    for name, content in (("1.links", links), ("hub.links", hub), ("input", row.make(size))):
        with open(os.path.join(folder, name), "wb") as file:
            file.write(content)


def measure(row, size, folder):
    """Runs a row's command on an input of a size. A process of its own makes the input. Returns how the command
    ended."""
    subprocess.run([sys.executable, __file__, "--make", row.command, row.name, str(size), folder], check=True)
    files = ("input", "base", "out", "1.links", "hub.links")
    words = [os.path.join(folder, word) if word in files else word for word in row.words]
    with open(os.path.join(folder, "input") if row.given else os.devnull, "rb") as given:
        return running.measured([PROGRAM, *words], given)


def is_orderly(status, fault):
    """Whether a run ended by itself, with one fault line if its status is a fault."""
    count, line = fault.split(" lines, ", 1)
    return status in (0, 1) and count == "0" or status in (2, 3) and count == "1" and line.startswith("echonet: ")


def try_row(row, folder):
    """Tries a row, prints its line, and returns whether all held."""
    whole = measure(row, row.size, folder)
    status, seconds, kilobytes, fault = whole
    ratio = seconds / measure(row, row.size // 2, folder)[1] if seconds > LEAST_SECONDS else 0.0
    if ratio > MOST_RATIO:
        ratio = running.steady_ratio(lambda size: (size, measure(row, size, folder)[1]), row.size)
    most = LEAST_KILOBYTES + (MOST_BYTES[row.command] * row.size + MOST_OF_PACKET * row.packets) / 1024
    wrong = [what for what, it in (("not in order", not is_orderly(status, fault)), ("not linear", ratio > MOST_RATIO),
                                   ("too much memory", kilobytes > most)) if it]
    print("%-9s %-42s %10d bytes  status %d  %7.2f s  ratio %4.2f  %8d kB %6.1f each  %s" % (
        row.command, row.name, row.size, status, seconds, ratio, kilobytes, kilobytes * 1024 / row.size,
        ", ".join(wrong) or fault.split(" lines, ", 1)[1].strip()), flush=True)
    return not wrong


def try_numbered(number, size, folder):
    """Tries the row of this number, in a folder of its own process."""
    return try_row(list(rows(size))[number], os.path.join(folder, str(os.getpid())))


def main(words):
    """Makes one input, or tries the rows."""
    if words[:1] == ["--make"]:
        command, name, size, folder = words[1:]
        make_input(next(row for row in rows(10**9) if (row.command, row.name) == (command, name)), int(size), folder)
        return 0
    size, jobs, piece = (words + ["64000000", "1", ""][len(words):])[:3]
    folder = tempfile.mkdtemp(prefix="echonet-trials.", dir="/dev/shm" if os.path.isdir("/dev/shm") else None)
    started = time.time()
    try:
        wanted = [(number, int(size), folder) for number, row in enumerate(rows(int(size)))
                  if piece in row.command + " " + row.name]
        with multiprocessing.Pool(int(jobs)) as pool:
            held = pool.starmap(try_numbered, wanted, 1)
    finally:
        shutil.rmtree(folder)
    print("%.0f s" % (time.time() - started))
    print("grown: %d passed, %d failed" % (held.count(True), held.count(False)))
    return 0 if all(held) else 1


if __name__ == "__main__":
    sys.exit(main(sys.argv[1:]))
