"""How long a repair takes, and the runs of a station, by processor time of three runs, with the most memory. The
yardstick of a repair is a scan of the same messages to one link; that of a station is what it starts.

- On a base folder of COUNT messages of 1.2 kB: `scan` to one link, `resend --all`, `resend --has` with a list of COUNT
  other ids, then with all ids of the base, and `list --ids`.
- `resend --has` with a list of IDS ids on a base folder of ten messages.
- `echonet-station STATION status` with a hundred areas, beside `list --areas`. toss, scan and run
  without mail. toss with 200 packets, without and with a file `peers`.

Arguments: COUNT IDS (100000 1000000). ECHONET names the program, by default bin/echonet.
"""
import os
import subprocess
import sys
import tempfile

TOP = os.path.dirname(os.path.dirname(os.path.abspath(__file__)))
sys.path.insert(0, os.path.join(TOP, "trials"))
import files
from lib import making, running
from lib.contents import write

os.environ["ECHONET"] = PROGRAM = os.path.abspath(files.PROGRAM)
LINKED = making.DOWNLINKS[0]
SIZE = 1050
REPAIR = ("--area", "TEST", "--to", making.shown(LINKED), "--at", making.STAMP)


def told(name, taken):
    """Prints a row: the least and the greatest seconds, and the memory."""
    print("%-44s %7.3f to %7.3f s, %6d kB" % (name, taken[0][0], taken[-1][0], max(kilobytes for _, kilobytes in taken)), flush=True)


def measured(name, prepare, *words):
    """Prints the row of a command. Something prepares each run."""
    taken = []
    for _ in range(files.ROUNDS):
        prepare()
        status, seconds, kilobytes, fault = running.measured(words)
        if status:
            raise SystemExit("%s: status %d, %s" % (name, status, fault))
        taken.append((seconds, kilobytes))
    told(name, sorted(taken))


def list_of(path, numbers):
    """A list of these ids."""
    lines = ["id 1:10/2 %08x\n" % number for number in numbers]
    return write(path, ("area TEST\n%send %d messages, 0 without id\n" % ("".join(lines), len(lines))).encode())


class Base:
    """A base folder with messages that wait for a scan, and the folder of its packets."""

    def __init__(self, place, count):
        self.place, self.links, self.out, self.base = place, *(os.path.join(place, name) for name in ("links", "out", "base"))
        write(self.links, making.link_file(making.OWN, [("TEST", [making.UPLINK, LINKED])]))
        write(self.at("made"), making.plain_base(range(count), SIZE, 0))

    def at(self, name):
        """A path beside the base."""
        return os.path.join(self.place, name)

    def fresh(self):
        """Makes the base again, without packets."""
        subprocess.run(["rm", "-rf", self.base, self.out], check=True)
        os.mkdir(self.base)
        os.mkdir(self.out)
        subprocess.run([PROGRAM, "convert", self.at("made"), self.base], check=True, stdout=subprocess.DEVNULL)

    def empty(self):
        """Removes the packets."""
        for name in os.listdir(self.out):
            os.remove(os.path.join(self.out, name))

    def resend(self, name, *words):
        """The row of a `resend`."""
        measured(name, self.empty, PROGRAM, "resend", *words, *REPAIR, self.links, self.base, self.out)


def repairs(place, count, ids):
    """The rows of a repair."""
    base = Base(place, count)
    measured("scan of %d to one link" % count, base.fresh, PROGRAM, "scan", "--at", making.STAMP, base.links, base.base, base.out)
    base.resend("resend --all", "--all")
    base.resend("resend --has, %d other ids" % count, "--has", list_of(base.at("ids"), range(count, 2 * count)))
    base.resend("resend --has, all %d ids" % count, "--has", list_of(base.at("ids"), range(count)))
    measured("list --ids", lambda: None, PROGRAM, "list", "--ids", "--area", "TEST", base.base)
    write(base.at("made"), making.plain_base(range(10), SIZE, 10))
    base.fresh()
    base.resend("resend --has, %d ids, a base of ten" % ids, "--has", list_of(base.at("ids"), range(ids)))


def stations(place):
    """The rows of a station."""
    def tool(word):
        return os.path.join(TOP, "station", "echonet-station"), place, word

    def arrive(tags):
        for number in range(200):
            text = making.plain_text(number, 300, making.pairs([making.OWN, making.UPLINK]), making.pairs([making.UPLINK]), tags[number % len(tags)])
            content = making.packet(making.UPLINK, making.OWN, [making.packed(making.UPLINK, making.OWN, text)])
            write(os.path.join(place, "inbound", "%08x.pkt" % number), content)

    def again():
        subprocess.run(["rm", "-rf", os.path.join(place, "base")], check=True)
        os.mkdir(os.path.join(place, "base"))
        arrive(tags)

    tags = [b"AREA%02d" % number for number in range(100)]
    write(os.path.join(place, "links"), making.link_file(making.OWN, [(tag.decode(), [making.UPLINK]) for tag in tags]))
    os.mkdir(os.path.join(place, "inbound"))
    measured("toss of 200 packets by echonet-station", again, *tool("toss"))
    write(os.path.join(place, "peers"), b"")
    os.chmod(os.path.join(place, "peers"), 0o600)
    measured("the same with a file peers", again, *tool("toss"))
    measured("run without mail, with peers", lambda: None, *tool("run"))
    os.remove(os.path.join(place, "peers"))
    measured("run without mail", lambda: None, *tool("run"))
    measured("scan without mail", lambda: None, *tool("scan"))
    measured("list --areas of a hundred areas", lambda: None, PROGRAM, "list", "--areas", os.path.join(place, "base"))
    measured("echonet-station status of these", lambda: None, *tool("status"))


def main(words):
    """All rows."""
    count, ids = [int(word) for word in words] + [100_000, 1_000_000][len(words):]
    with tempfile.TemporaryDirectory() as place:
        repairs(place, count, ids)
    with tempfile.TemporaryDirectory() as place:
        stations(place)


if __name__ == "__main__":
    main(sys.argv[1:])
