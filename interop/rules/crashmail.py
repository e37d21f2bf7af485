"""A system of its own with CrashMail II. It gets packets and postings. Its folders show what it files and sends."""
import glob
import os
import struct
import subprocess
import time

from lib import making, reading
from lib.contents import read, write
from judge import OWN, Packed

HERE = os.path.dirname(os.path.abspath(__file__))
FOLDERS = ("inbound", "outbound", "temp", "create", "packets", "write", "msg/netmail", "msg/bad")
LONGEST = 300  # seconds
LOCAL = 0x100  # the attribute of a message that was written here


def wait_for_second():
    """Waits until a second begins, and returns it."""
    time.sleep(1.02 - time.time() % 1)
    return int(time.time())


def within_a_second(act):
    """Repeats an action until it begins and ends in one second, ten times at most."""
    for number in range(10):
        second = wait_for_second()
        act(number)
        if int(time.time()) == second:
            return


class CrashMail:
    """A station in a folder. `nets` has the links of each system in each area. `without` names lines to leave out of
    its settings, and `adding` has further lines. `area` has further lines for each area, `node` words for the line of
    a link, and `link` a mark for it in the EXPORT lines."""

    name = "CrashMail"

    def __init__(self, folder, nets, without=(), adding=(), node=None, area=(), link=None):
        self.folder, self.nets, self.unreadable, self.brought = folder, nets, [], 0
        for name in FOLDERS + tuple("msg/" + tag.lower() for tag in nets):
            os.makedirs(self.path(name))
        write(self.path("keep.sh"), b"#!/bin/sh\n")
        os.chmod(self.path("keep.sh"), 0o700)
        lines = read(os.path.join(HERE, "..", "crashmail.prefs")).decode().replace("FOLDER", folder).split("\n")
        lines = [line for line in lines if line.split(" ")[0] not in without]
        at = lines.index("AKA 1:10/2") + 1
        lines[at:at] = [line.replace("FOLDER", folder) for line in adding]
        lines += self.node_lines(node or {}) + self.area_lines(area, link or {})
        write(self.path("prefs"), "\n".join(lines + [""]).encode())

    def node_lines(self, words):
        """A line for each link of any area."""
        known = sorted({link for net in self.nets.values() for link in net} - {OWN})
        return ['NODE %s "" "" %s' % (making.shown(link), words.get(link, "")) for link in known]

    def area_lines(self, words, marks):
        """The lines of each area."""
        lines = []
        for tag, net in self.nets.items():
            links = " ".join(marks.get(link, "") + making.shown(link) for link in sorted(net[OWN]))
            lines.append('AREA "%s" 1:10/2 MSG "%s"' % (tag, self.path("msg/" + tag.lower())))
            lines += ["EXPORT " + links] * bool(links) + list(words)
        return lines

    def path(self, name):
        """A path in the folder."""
        return os.path.join(self.folder, name)

    def run(self, *words):
        """Runs the tosser."""
        subprocess.run(["crashmail", "SETTINGS", self.path("prefs"), *words], check=True, timeout=LONGEST,
                       stdin=subprocess.DEVNULL, stdout=subprocess.DEVNULL)

    def bring(self, *packets):
        """Puts packets into the inbound folder."""
        for content in packets:
            write(self.path("inbound/%08x.pkt" % self.brought), content)
            self.brought += 1

    def toss(self, *packets):
        """Tosses packets, and returns what it sends on."""
        self.bring(*packets)
        self.run("TOSS")
        return self.sent()

    def settle(self):
        """Sends what waits."""
        self.run("SCAN")
        return self.sent()

    def write_posting(self, tag, to, by, subject, lines, folder="write", changed=None):
        """Has crashwrite make the packet of a posting, with a changed environment, and returns the message."""
        write(self.path("body"), b"".join(line + b"\n" for line in lines))
        os.makedirs(self.path(folder), exist_ok=True)
        before = set(glob.glob(self.path(folder) + "/*.pkt"))
        subprocess.run(
            ["crashwrite", "DIR", self.path(folder), "AREA", tag, "TONAME", to, "TOADDR", "1:10/2", "FROMNAME", by,
             "FROMADDR", "1:10/2", "SUBJECT", subject, "ORIGIN", "Beta", "TEXT", self.path("body")],
            check=True, timeout=LONGEST, stdout=subprocess.DEVNULL, env={**os.environ, **(changed or {})})
        made, = set(glob.glob(self.path(folder) + "/*.pkt")) - before
        # crashwrite writes a date of 20 bytes.
        (message,), fault, _ = reading.read_packet(read(made), reading.MOST_SHOWN)
        if fault is not None:
            raise ValueError("crashwrite: " + fault)
        return Packed(*message[1:])

    def post(self, tag, to, by, subject, lines):
        """Posts a message, and returns it and what is sent."""
        message = self.write_posting(tag, to, by, subject, lines)
        self.run("TOSSDIR", self.path("write"), "NOSECURITY")
        return message, self.sent()

    def write_message(self, number, written):
        """Writes NUMBER.msg of the area TEST as an editor does, marked as local and not yet sent."""
        strings = written.by, written.to, written.subject, written.date
        head = struct.pack("<36s36s72s20s13H", *strings, *[0] * 11, LOCAL, 0)
        write(self.path("msg/test/%d.msg" % number), head + written.text.partition(b"\r")[2] + b"\0")

    def sent(self):
        """What the mailer has to send: each message of the packets in the flow files, with its addressee."""
        copies = []
        for flow in sorted(glob.glob(self.path("outbound*/*.?lo"))):
            folder, name = flow.split("/")[-2:]
            zone = int(folder.partition(".")[2] or "1", 16)
            link = zone, int(name[:4], 16), int(name[4:8], 16)
            for line in sorted(set(read(flow).decode().split())):
                copies += [(link, message) for message in self.read_sent(line.lstrip("^"), link)]
                os.remove(line.lstrip("^"))
            os.remove(flow)
        return copies

    def read_sent(self, path, link):
        """The messages of a packet for a link."""
        content = read(path)
        messages, fault, _ = reading.read_packet(content, reading.MOST_SHOWN)
        if fault is None and reading.read_header(content) != (OWN, link):
            fault = "it names others"
        if fault is not None:
            self.unreadable.append("a packet to %s: %s" % (making.shown(link), fault))
        return [Packed(*message[1:]) for message in messages]

    def filed(self):
        """The subjects of the messages in its areas, without those of bad messages."""
        return [read(path)[72:144].split(b"\0")[0] for tag in self.nets
                for path in glob.glob(self.path("msg/%s/*.msg" % tag.lower()))]
