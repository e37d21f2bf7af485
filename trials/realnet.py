"""A day of a new station among real programs: an uplink and a point of CrashMail II, a link of ifmail, all with binkd.

The station is made by `echonet-station new`. Its uplink packs with zip and wants a packet password, ifmail packs
letters and echomail into one bundle, the point has an address that its link file cannot have. None of them has a
setting that is made for echonet. In each round each system posts a message, and letters go both ways. In some rounds the
station's runs are killed, or start at the same time. At the end each system has each message once, with its text; each
letter is at its receiver once; `doctor` finds nothing, nothing was put aside, and nothing is left on its way.

Arguments: how many rounds, the first of four ports. It needs binkd, crashmail, zip, unzip, and ifmail with ifgate
(trials/programs.sh). Without ifmail that link is left out, without the others the trial, with a line.
"""
import glob
import os
import random
import shutil
import signal
import subprocess
import sys
import tempfile
import time

from lib import others
from lib.contents import TOP, read, write

PROGRAM = os.environ.get("ECHONET", os.path.join(TOP, "bin", "echonet"))
STATION = os.path.join(TOP, "station", "echonet-station")
OWN, UPLINK, LINK, POINT, FAKE = "2:5020/100", "2:5020/1", "2:5020/2", "2:5020/100.7", "2:31000/7"
MOST_SECONDS = 240


def echonet_station(folder, *words, given=b""):
    """Runs a word of the program."""
    return others.run([STATION, folder, *words], given, os.path.dirname(folder))


def add(path, text):
    """Adds lines to a file."""
    with open(path, "a", encoding="ascii") as file:
        file.write(text)


class Day:
    """The systems, and what was posted."""

    def __init__(self, place, port, has_ifmail):
        self.place, self.port, self.has_ifmail = place, port, has_ifmail
        self.posted, self.letters, self.rounds = [], [], 0
        self.station = os.path.join(place, "station")
        self.make_station()
        self.make_others()
        self.mailers = [others.Binkd(os.path.join(folder, "binkd.conf"), folder) for folder in self.folders()]

    def folders(self):
        """Those of all systems."""
        names = ["station", "uplink", "point"] + (["ifmail"] if self.has_ifmail else [])
        return [os.path.join(self.place, name) for name in names]

    def make_station(self):
        """The station, and the lines for a second link and a point."""
        status, said = echonet_station(self.station, "new", OWN, "Station", UPLINK, "127.0.0.1:%d" % (self.port + 1), "uplinkpw", "TEST")
        if status:
            sys.exit("new: %d %s" % (status, said))
        links = [UPLINK, FAKE] + ([LINK] if self.has_ifmail else [])
        path = os.path.join(self.station, "links")
        write(path, read(path).replace(b"AREA TEST " + UPLINK.encode(), b"AREA TEST " + " ".join(links).encode()))
        add(os.path.join(self.station, "peers"), "POINT %s %s PASSWORD pointpw\n" % (FAKE, POINT))
        lines = ["listen 127.0.0.1:%d" % self.port, "loglevel 4", "rescan-delay 2", "call-delay 2",
                 "node %s@fidonet 127.0.0.1:%d pointpw" % (POINT, self.port + 2)]
        if self.has_ifmail:
            add(os.path.join(self.station, "peers"), "PEER %s PASSWORD IFPASS\n" % LINK)
            lines.append("node %s@fidonet 127.0.0.1:%d ifpass" % (LINK, self.port + 3))
        add(os.path.join(self.station, "binkd.conf"), "\n".join(lines) + "\n")
        # The session password of the uplink is that of `new`; packets carry its first eight bytes.
        status, said = echonet_station(self.station, "doctor")
        if status:
            sys.exit("doctor: %d %s" % (status, said))

    def make_others(self):
        """The other systems, set up as for any node."""
        uplink, point = (os.path.join(self.place, name) for name in ("uplink", "point"))
        self.uplink = others.CrashMail(
            uplink, UPLINK + ".0", [OWN + '.0 "ZIP" "uplinkpw" PACKNETMAIL'], [("TEST", OWN + ".0")],
            ['"2:5020/100.*" "%s.0" %s.0' % (OWN, UPLINK)])
        self.point = others.CrashMail(
            point, POINT, [OWN + '.0 "" "pointpw"'], [("TEST", OWN + ".0")], ['"*:*/*.*" "%s.0" %s' % (OWN, POINT)])
        for tosser, address, number, password in ((self.uplink, UPLINK, 1, "uplinkpw"), (self.point, POINT, 2, "pointpw")):
            hook = os.path.join(tosser.folder, "hook.sh")
            write(hook, ('#!/bin/sh\nexec 9> %s/lock\nflock 9\nsleep 1.1\nPATH=$PATH:/usr/bin crashmail SETTINGS %s/prefs TOSS '
                         '> /dev/null 9>&-\n' % (tosser.folder, tosser.folder)).encode())
            os.chmod(hook, 0o755)
            config = others.mailer_lines(tosser.folder, address, self.port + number, [(OWN, self.port, password)], hook)
            write(os.path.join(tosser.folder, "binkd.conf"), config.encode())
        if self.has_ifmail:
            self.ifmail = others.Ifmail(os.path.join(self.place, "ifmail"), LINK, OWN, "IFPASS", ["TEST"])
            hook = os.path.join(self.ifmail.folder, "hook.sh")
            write(hook, ('#!/bin/sh\nexec 9> %s/lock\nflock 9\n%s/ifunpack -I %s/config\n' % (
                self.ifmail.folder, others.GATEWAY, self.ifmail.folder)).encode())
            os.chmod(hook, 0o755)
            config = others.mailer_lines(self.ifmail.folder, LINK, self.port + 3, [(OWN, self.port, "ifpass")], hook)
            write(os.path.join(self.ifmail.folder, "binkd.conf"), config.encode())

    def script(self, word):
        """Starts a word of the station in a group of its own."""
        return subprocess.Popen([STATION, self.station, word], stdout=subprocess.DEVNULL, stderr=subprocess.DEVNULL,
                                stdin=subprocess.DEVNULL, start_new_session=True)

    def disturb(self, rng):
        """Kills runs, or lets several run at once."""
        runs = [self.script(rng.choice(("toss", "scan"))) for _ in range(rng.randrange(1, 4))]
        for run in runs:
            if rng.random() < 0.5:
                time.sleep(rng.random() * 0.5)
                try:
                    os.killpg(run.pid, signal.SIGKILL)
                except ProcessLookupError:
                    pass
            run.wait()

    def round(self, rng):
        """Each system posts a message. Letters go between the systems."""
        number = self.rounds = self.rounds + 1
        names = ["Text%d%s" % (number, who) for who in "usip"]
        self.uplink.write("test", b"All", names[0].encode(), b"%s!\r" % names[0].encode())
        status, said = echonet_station(self.station, "post", "TEST", "All", "Sysop", names[1], given=b"%s!\n" % names[1].encode())
        if status:
            sys.exit("post: %d %s" % (status, said))
        self.point.write("test", b"All", names[3].encode(), b"%s!\r" % names[3].encode())
        self.posted += [names[0], names[1], names[3]]
        self.write_letters(number)
        if self.has_ifmail:
            self.ifmail.write("TEST", names[2], names[2] + "!")
            self.ifmail.letter("Sysop", "Letter%dis" % number, "Letter%dis!" % number)
            self.posted.append(names[2])
            self.letters.append(("Letter%dis" % number, self.station))
            self.ifmail.pack()
        for tosser in (self.uplink, self.point):
            tosser.run("SCAN")
        if rng.random() < 0.7:
            self.disturb(rng)
        self.script("scan").wait()

    def write_letters(self, number):
        """From the uplink to the station and its point, from the point to the uplink, and from the station to all."""
        for tosser, receiver, mark in ((self.uplink, OWN, "us"), (self.uplink, POINT, "up"), (self.point, UPLINK, "pu")):
            name = "Letter%d%s" % (number, mark)
            tosser.write("netmail", b"Reader", name.encode(), b"%s!\r" % name.encode(), receiver)
            self.letters.append((name, {OWN: self.station, POINT: self.point.folder, UPLINK: self.uplink.folder}[receiver]))
        for receiver, folder, mark in ((UPLINK, self.uplink.folder, "su"), (POINT, self.point.folder, "sp")):
            name = "Letter%d%s" % (number, mark)
            self.put_letter(others.stored(OWN, receiver, b"Reader", name.encode(), b"%s!\r" % name.encode()))
            self.letters.append((name, folder))

    def put_letter(self, content):
        """Puts a letter into the station's folder of netmail, under a free name, as an editor does."""
        folder, path = os.path.join(self.station, "netmail"), os.path.join(self.place, "letter")
        os.makedirs(folder, exist_ok=True)
        write(path, content)
        os.utime(path, (time.time() - 3, time.time() - 3))
        number = 2
        while True:
            try:
                os.link(path, os.path.join(folder, "%d.msg" % number))
                break
            except FileExistsError:
                number += 1
        os.unlink(path)

    def counts(self):
        """What is missing or there more than once: texts at each system, and letters."""
        wrong = []
        listed = subprocess.run([PROGRAM, "list", os.path.join(self.station, "base")], stdout=subprocess.PIPE, check=False).stdout
        places = {"station": listed, "uplink": b"\n".join(self.uplink.texts("test")), "point": b"\n".join(self.point.texts("test"))}
        if self.has_ifmail:
            places["ifmail"] = self.ifmail.news()
        for name in self.posted:
            for place, content in places.items():
                if place == "ifmail" and name.endswith("i"):
                    continue
                count = content.count(name.encode() + b"!")
                if count != 1:
                    wrong.append("%s at %s: %d" % (name, place, count))
        for name, folder in self.letters:
            netmail = os.path.join(folder, "netmail") if folder == self.station else os.path.join(folder, "msg", "netmail")
            count = sum(read(path).count(name.encode() + b"!") for path in glob.glob(netmail + "/*.msg"))
            if count != 1:
                wrong.append("%s at %s: %d" % (name, os.path.basename(folder), count))
        return wrong

    def left(self):
        """Files on their way, and what was put aside."""
        found = []
        for folder in self.folders():
            for name in ("inbound", "outbound*", "packets", "scanned", "tossing", "gate", "letters", "bad"):
                for path in glob.glob(os.path.join(folder, name, "**"), recursive=True):
                    if os.path.isfile(path) and os.path.basename(path) != "cmindex":
                        found.append(os.path.relpath(path, self.place))
        return found

    def settle(self):
        """Waits until all has come."""
        end = time.time() + MOST_SECONDS
        wrong = ["nothing was looked at"]
        while wrong and time.time() < end:
            time.sleep(3)
            self.script("toss").wait()
            self.script("scan").wait()
            wrong = self.counts() or self.left()
        return wrong


def main():
    """The trial."""
    rounds = int(sys.argv[1]) if len(sys.argv) > 1 else 6
    port = int(sys.argv[2]) if len(sys.argv) > 2 else 24630
    lack = others.missing("binkd", "crashmail", "zip", "unzip", "flock")
    if lack:
        print("realnet.py: left out, there is no %s (trials/programs.sh)" % lack)
        return
    has_ifmail = others.missing("ifnews", "ifpack", "ifunpack") is None
    place = tempfile.mkdtemp()
    os.environ["ECHONET"] = PROGRAM
    day, wrong = Day(place, port, has_ifmail), []
    try:
        for mailer in day.mailers:
            mailer.start()
        rng = random.Random(rounds)
        for _ in range(rounds):
            day.round(rng)
        wrong = day.settle()
        status, said = echonet_station(day.station, "status")
        if status or wrong:
            sys.exit("realnet.py: %s\nstatus %d\n%s\n%s" % ("\n".join(wrong), status, said, place))
    finally:
        for mailer in day.mailers:
            mailer.stop()
    shutil.rmtree(place)
    print("realnet.py: %d messages at each of %d systems once, %d letters once%s" % (
        len(day.posted), len(day.folders()), len(day.letters), "" if has_ifmail else "; left out: a link of ifmail"))


if __name__ == "__main__":
    main()
