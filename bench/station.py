"""How long a station and a hub take, against their limits: the best of eight runs by processor time, and the most memory.

- runs: `run` without mail, and with 200 packets beside `echonet toss` of them, of one area and of 300.
- bundle: `run` with a bundle of 37 MB, also one that goes on to a link: memory.
- links: a hub of 300 areas with 50 links and their 50 link files in net/. A letter to AreaFix with 200 lines, `subscribe`
  without and with new mail.
- sums: the same hub. `stats` of a log of 200,000 lines of a year, `status --page` with the size of the page.

It ends with status 1 if a limit is missed. With the program of `make quick`, give MOST_MEMORY=-1; its numbers are larger.
Arguments: some of these words; by default all. ROUNDS is how often each row runs (8). ECHONET names the program, by default
bin/echonet.
"""
import os
import shutil
import sys
import tempfile
import time
import zipfile

TOP = os.path.dirname(os.path.dirname(os.path.abspath(__file__)))
sys.path.insert(0, os.path.join(TOP, "trials"))
from lib import making, running
from lib.contents import write

os.environ["ECHONET"] = PROGRAM = os.path.abspath(os.environ.get("ECHONET", os.path.join(TOP, "bin", "echonet")))
STATION = os.path.join(TOP, "station", "echonet-station")
ROUNDS, DAY = int(os.environ.get("ROUNDS", "8")), 86400
MOST_SECONDS = 3600
OWN, UPLINK, ASKER = (2, 5020, 100), (2, 5020, 1), (2, 5020, 999)
LINKS = [(2, 5020, 200 + number) for number in range(50)]
TAGS = ["AREA.%03d" % number for number in range(300)]
BUNDLE_SIZE, BUNDLE_MESSAGES = 37 << 20, 60000
LOG_LINES = 200000


def message(number, tag, size=1050):
    """A message of the uplink."""
    text = b"AREA:%s\r\x01MSGID: 2:5020/1 %08x\r%s\r--- x\r * Origin: o (2:5020/1)\rSEEN-BY: 5020/1 100\r\x01PATH: 5020/1\r"
    return making.packed(UPLINK, OWN, text % (tag.encode(), number, b"x" * 79 + b"\r" + b"y" * max(0, size - 250)))


def packet(*messages, by=UPLINK):
    """A packet."""
    return making.packet(by, OWN, messages)


class Bench:
    """The rows. Each run has a fresh copy of its station."""

    def __init__(self, place):
        self.place, self.is_missed = place, False
        self.station = os.path.join(place, "station")

    def row(self, name, limit, folder, *words, beside=0.0, unit="s"):
        """A row: the best of the runs, less what it is beside, and the memory, of which one is compared with the limit.
        Returns the seconds."""
        taken = []
        for _ in range(ROUNDS):
            shutil.rmtree(self.station, ignore_errors=True)
            shutil.copytree(folder, self.station)
            status, seconds, kilobytes, fault = running.measured(
                [word.replace("STATION", self.station) for word in words], most_seconds=MOST_SECONDS)
            if status not in (0, 1):
                raise SystemExit("%s: status %d, %s" % (name, status, fault))
            taken.append((seconds - beside, kilobytes / 1024))
        best, most = min(taken)[0], max(megabytes for _, megabytes in taken)
        found = best if unit == "s" else most
        what = "" if limit is None else " of %g %s: %s" % (limit, unit, "good" if found <= limit else "MISSED")
        self.is_missed = self.is_missed or bool(limit is not None and found > limit)
        print("%-48s %7.3f to %7.3f s, %5.1f MB%s" % (name, best, max(taken)[0], most, what), flush=True)
        return best

    def make(self, name, tags, links=(UPLINK,)):
        """A station with areas that have some links. Returns its folder."""
        folder = os.path.join(self.place, name)
        for part in ("base", "inbound"):
            os.makedirs(os.path.join(folder, part))
        write(os.path.join(folder, "links"), making.link_file(OWN, [(tag, list(links)) for tag in tags], "Hub"))
        write(os.path.join(folder, "peers"), b"PEER 2:5020/1\nROUTE 2:5020/1\nPEER 2:5020/999 AREAFIX wordword GROUPS A\n")
        os.chmod(os.path.join(folder, "peers"), 0o600)
        return folder

    def run(self, folder, *words):
        """A run that prepares a station. It has to end well."""
        status, _, _, fault = running.measured([STATION, folder, *words], most_seconds=MOST_SECONDS)
        if status not in (0, 1):
            raise SystemExit("%s: status %d, %s" % (words, status, fault))

    def runs(self):
        """`run` of a node."""
        for many, tags in (("1 area", TAGS[:1]), ("300 areas", TAGS)):
            folder = self.make("node of " + many.replace(" ", "-"), tags)
            self.run(folder, "run")
            self.row("run without mail, " + many, 0.15, folder, STATION, "STATION", "run")
            paths = []
            for number in range(200):
                paths.append(os.path.join(folder, "inbound", "%03d.pkt" % number))
                write(paths[-1], packet(message(number, tags[number % len(tags)])))
            inside = [path.replace(folder, "STATION") for path in paths]
            alone = self.row("toss of 200 packets, " + many, None, folder, PROGRAM, "toss", "STATION/links", "STATION/base", *inside)
            self.row("run with 200 packets beside that toss, " + many, 1.0, folder, STATION, "STATION", "run", beside=alone)

    def bundle(self):
        """A large bundle."""
        content = packet(*(message(number, TAGS[0], BUNDLE_SIZE // BUNDLE_MESSAGES) for number in range(BUNDLE_MESSAGES)))
        folders = [self.make(name, TAGS[:1], links) for name, links in (("bundle", (UPLINK,)), ("bundle that goes on", (UPLINK, LINKS[0])))]
        for folder in folders:
            with zipfile.ZipFile(os.path.join(folder, "inbound", "0000ff90.su0"), "w", zipfile.ZIP_DEFLATED) as file:
                file.writestr("x.pkt", content)
        # Its password is written into the packet, and a point makes this read all messages.
        with open(os.path.join(folders[1], "peers"), "ab") as file:
            file.write(b"PEER 2:5020/200 PASSWORD word\nPOINT 2:31000/7 2:5020/100.7\n")
        self.row("gate with a bundle of 37 MB", 40, folders[0], STATION, "STATION", "gate", unit="MB")
        self.row("run with a bundle of 37 MB", 40, folders[0], STATION, "STATION", "run", unit="MB")
        self.row("run with a bundle of 37 MB that goes on", 40, folders[1], STATION, "STATION", "run", unit="MB")

    def hub(self, name):
        """A hub whose links have all areas. Returns its folder."""
        folder = self.make(name, TAGS, (UPLINK, *LINKS))
        for link in (UPLINK, *LINKS[:49]):
            os.makedirs(os.path.join(folder, "net"), exist_ok=True)
            write(os.path.join(folder, "net", "%d.%d.%d" % link), making.link_file(link, [(tag, [OWN]) for tag in TAGS]))
        write(os.path.join(folder, "areas"), b"".join(b"%s A An area of the hub\n" % tag.encode() for tag in TAGS))
        write(os.path.join(folder, "inbound", "1.pkt"), packet(*(message(number, tag) for number, tag in enumerate(TAGS))))
        self.run(folder, "toss")
        return folder

    def links(self):
        """A letter to AreaFix, and the command."""
        folder = self.hub("hub")
        self.run(folder, "net")
        lines = "".join("+%s\r" % tag for tag in TAGS[:200]).encode()
        letter = making.packed(ASKER, OWN, b"\x01INTL 2:5020/100 2:5020/999\r" + lines, b"AreaFix", b"Bob", b"wordword")
        self.row("subscribe", 0.5, folder, STATION, "STATION", "subscribe", making.shown(ASKER), TAGS[7])
        write(os.path.join(folder, "inbound", "2.pkt"), packet(letter, by=ASKER))
        self.row("a letter to AreaFix with 200 lines", 2.0, folder, STATION, "STATION", "toss")
        write(os.path.join(folder, "inbound", "2.pkt"), packet(message(1000, TAGS[7])))
        self.run(folder, "toss")
        self.row("subscribe after new mail", None, folder, STATION, "STATION", "subscribe", making.shown(ASKER), TAGS[7])

    def sums(self):
        """Statistics and the page."""
        folder, now, lines = self.hub("hub with a log"), time.time(), []
        for number in range(LOG_LINES):
            stamp = time.strftime("%Y-%m-%dT%H:%M:%SZ", time.gmtime(now - 365 * DAY * (1 - number / LOG_LINES)))
            link = making.shown(LINKS[number % 50])
            came = "came %08x.pkt from %s filed 3 known 1 notecho 0 badtag 0 noarea 0 notlinked 0" % (number, link)
            known = "known 1 %s from %s" % (TAGS[number % 300], link)
            sent = "sent %08x.pkt to %s 3 messages 3210 bytes" % (number, link)
            lines.append("%s %s\n" % (stamp, (came, known, sent)[number % 3]))
        write(os.path.join(folder, "log"), "".join(lines).encode())
        self.row("stats of a year, 200,000 lines", 2.0, folder, STATION, "STATION", "stats", "--days", "365")
        self.row("status --page", 0.5, folder, STATION, "STATION", "status", "--page", "STATION/page.html")
        page = os.path.join(self.station, "page.html")
        size = os.path.getsize(page)
        self.is_missed = self.is_missed or size > 200000
        print("the page: %d bytes of 200,000: %s" % (size, "good" if size <= 200000 else "MISSED"))


def main():
    """All rows."""
    with tempfile.TemporaryDirectory() as place:
        # Modules are compiled, as they are where the program is installed.
        os.environ.pop("PYTHONDONTWRITEBYTECODE", None)
        os.environ["PYTHONPYCACHEPREFIX"] = os.path.join(place, "compiled")
        bench = Bench(place)
        for group in sys.argv[1:] or ("runs", "bundle", "links", "sums"):
            getattr(bench, group)()
        sys.exit(bench.is_missed)


if __name__ == "__main__":
    main()
