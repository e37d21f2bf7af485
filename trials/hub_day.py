"""A day of a hub among real programs: an uplink that is a hub of this program, and a downlink of CrashMail II, with binkd.

`echonet-station link` makes the downlink. It writes to AreaFix, gets its answer and the area, and then a message of the
uplink. Letters go from the downlink to the uplink and back through the hub, once each, with Via. A letter for a system that
nobody knows goes round between the two hubs once, and is put aside. A letter with a wrong word, and one that was forged by
the uplink, are told `not accepted`. After a pause the downlink has what came meanwhile, once.

Arguments: the first of three ports. It needs binkd and crashmail (trials/programs.sh); without them it is left out, with a
line.
"""
import glob
import os
import shutil
import signal
import sys
import tempfile
import time

from lib import others
from lib.contents import TOP, read, write

PROGRAM = os.environ.get("ECHONET", os.path.join(TOP, "bin", "echonet"))
STATION = os.path.join(TOP, "station", "echonet-station")
HUB, UPLINK, DOWN, NOBODY = "2:5020/100", "2:5020/1", "2:5020/200", "2:5020/999"
MOST_SECONDS = 120


def told(folder, *words, given=b""):
    """Runs a command of a station. It has to end well."""
    status, said = others.run([STATION, folder, *words], given)
    if status:
        sys.exit("hub_day.py: %s: %d %s" % (" ".join(words), status, said))
    return said


class Day:
    """The three systems."""

    def __init__(self, place, port):
        self.place, self.port = place, port
        self.hub, self.uplink, down = (os.path.join(place, name) for name in ("hub", "uplink", "down"))
        self.make_hubs()
        self.down = others.CrashMail(
            down, DOWN + ".0", [HUB + '.0 "" "downword"'], [("TEST", HUB + ".0")], ['"*:*/*.*" "%s.0" %s.0' % (HUB, DOWN)])
        hook = os.path.join(down, "hook.sh")
        write(hook, ('#!/bin/sh\nexec 9> %s/lock\nflock 9\nsleep 1.1\nPATH=$PATH:/usr/bin crashmail SETTINGS %s/prefs TOSS > /dev/null 9>&-\n'
                     % (down, down)).encode())
        os.chmod(hook, 0o755)
        config = others.mailer_lines(down, DOWN, port + 2, [(HUB, port, "downword")], hook)
        write(os.path.join(down, "binkd.conf"), config.encode())
        self.mailers = [others.Binkd(os.path.join(folder, "binkd.conf"), folder) for folder in (self.hub, self.uplink, down)]

    def make_hubs(self):
        """Both hubs pass letters, and send each other what they do not know."""
        told(self.hub, "new", HUB, "Hub", UPLINK, "127.0.0.1:%d" % (self.port + 1), "hubsword", "TEST")
        told(self.uplink, "new", UPLINK, "Uplink", HUB, "127.0.0.1:%d" % self.port, "hubsword", "TEST")
        said = told(self.hub, "link", DOWN, "--host", "127.0.0.1:%d" % (self.port + 2), "--password", "downword", "--areafix", "areaword", "--groups", "A")
        if "mail to the sysop of " + DOWN not in said:
            sys.exit("hub_day.py: link: " + said)
        write(os.path.join(self.hub, "areas"), b"TEST A trials\n")
        for folder, number in ((self.hub, 0), (self.uplink, 1)):
            path = os.path.join(folder, "peers")
            write(path, b"".join(line.replace(b"\n", b" PASS\n") if line.startswith(b"PEER") else line for line in read(path).splitlines(True)))
            lines = ("listen 127.0.0.1:%d" % (self.port + number), "loglevel 4", "rescan-delay 2", "call-delay 2", "")
            with open(os.path.join(folder, "binkd.conf"), "a", encoding="ascii") as file:
                file.write("\n".join(lines))

    def runs(self):
        """What cron does at both hubs."""
        for folder in (self.hub, self.uplink):
            others.run([STATION, folder, "run"])

    def ask(self, subject, body, number):
        """A letter of the downlink to AreaFix."""
        self.down.write("netmail", b"AreaFix", subject, body + b"\r\x01MSGID: %s %08x\r" % (DOWN.encode(), number), HUB)
        self.down.run("SCAN")

    def wait(self, what, is_there):
        """Waits until something has come."""
        end = time.time() + MOST_SECONDS
        while not is_there():
            if time.time() > end:
                sys.exit("hub_day.py: %s did not come\n%s" % (what, told(self.hub, "stats")))
            self.runs()
            time.sleep(2)
        print("hub_day.py: " + what, flush=True)

    def at_down(self, text, area="netmail"):
        """How many messages of the downlink have a text."""
        return sum(text in it for it in self.down.texts(area))

    def letters(self, folder, text):
        """The letters of a hub that have a text."""
        return [it for it in map(read, glob.glob(os.path.join(folder, "netmail", "*.msg"))) if text in it]

    def areafix(self):
        """The downlink asks."""
        self.ask(b"areaword", b"+TEST\r%LIST\r--- x", 1)
        self.wait("AreaFix linked the area", lambda: self.at_down(b"TEST: linked\r> %LIST\r* TEST  trials\r") == 1)
        self.ask(b"wrong", b"-TEST", 2)
        self.wait("a wrong word was not accepted", lambda: self.at_down(b"not accepted\r") == 1)
        told(self.uplink, "letter", HUB, "AreaFix", "Forger", "areaword", given=b"\x01INTL %s %s\n-TEST\n" % (HUB.encode(), DOWN.encode()))
        self.wait("a forged letter was not accepted", lambda: read(os.path.join(self.hub, "log")).count(b" not accepted\n") == 2)
        if DOWN.encode() not in read(os.path.join(self.hub, "links")):
            sys.exit("hub_day.py: a forged letter took the area away")

    def mail(self):
        """Echomail, and letters through the hub."""
        told(self.uplink, "post", "TEST", "All", "Uplink", "One", given=b"One!\n")
        self.wait("echomail came", lambda: self.at_down(b"One!", "test") == 1)
        self.down.write("netmail", b"Sysop", b"up", b"Upwards!\r", UPLINK)
        self.down.run("SCAN")
        told(self.uplink, "letter", DOWN, "Sysop", "Uplink", "down", given=b"Downwards!\n")
        via = b"\x01Via %s @" % HUB.encode()
        self.wait("a letter came to the uplink", lambda: len(self.letters(self.uplink, b"Upwards!")) == 1)
        self.wait("a letter came to the downlink", lambda: self.at_down(b"Downwards!") == 1)
        if via not in self.letters(self.uplink, b"Upwards!")[0] or self.letters(self.hub, b"wards!"):
            sys.exit("hub_day.py: no Via, or a letter stays at the hub")

    def loop(self):
        """A letter for nobody. The uplink passes it back, since it passes what is from the downlink."""
        with open(os.path.join(self.uplink, "peers"), "a", encoding="ascii") as file:
            file.write("PEER %s PASS\n" % DOWN)
        self.down.write("netmail", b"Nobody", b"lost", b"Round!\r", NOBODY)
        self.down.run("SCAN")
        reasons = os.path.join(self.hub, "bad", "*.letters.pkt.why")
        self.wait("a loop of letters ended", lambda: any(b"a loop: passed here before" in read(path) for path in glob.glob(reasons)))
        told(self.hub, "purge", "--older", "90")

    def pause(self):
        """A pause."""
        told(self.hub, "pause", DOWN)
        told(self.uplink, "post", "TEST", "All", "Uplink", "Two", given=b"Two!\n")
        self.wait("the hub has mail", lambda: "messages 2 waiting 0" in others.run([STATION, self.hub, "status"])[1])
        if self.at_down(b"Two!", "test"):
            sys.exit("hub_day.py: a paused link got mail")
        told(self.hub, "resume", DOWN)
        told(self.uplink, "post", "TEST", "All", "Uplink", "Three", given=b"Three!\n")
        self.wait("mail came after the pause", lambda: self.at_down(b"Three!", "test") == 1 and self.at_down(b"Two!", "test") == 1)
        time.sleep(6)
        counts = [self.at_down(text, "test") for text in (b"One!", b"Two!", b"Three!")]
        if counts != [1, 1, 1] or self.at_down(b"", "bad"):
            sys.exit("hub_day.py: messages at the downlink: %s" % counts)


def main():
    """The trial."""
    lack = others.missing("binkd", "crashmail", "flock")
    if lack:
        print("hub_day.py: left out, there is no %s (trials/programs.sh)" % lack)
        return
    os.environ["ECHONET"] = PROGRAM
    place = tempfile.mkdtemp()
    day = Day(place, int(sys.argv[1]) if len(sys.argv) > 1 else 24670)
    try:
        for mailer in day.mailers:
            mailer.start()
        for part in (day.areafix, day.mail, day.loop, day.pause):
            part()
    finally:
        for mailer in day.mailers:
            mailer.stop(signal.SIGKILL)
    shutil.rmtree(place)
    print("hub_day.py: all came, once")


if __name__ == "__main__":
    main()
