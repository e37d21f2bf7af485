"""Systems that run other programs, for the trials: CrashMail II, ifmail and binkd, of Debian's packages.

Each class makes the files of a system in a folder, and runs its program there. trials/programs.sh installs them.
"""
import glob
import os
import shutil
import signal
import struct
import subprocess
import time

from lib.contents import TOP, read, write

GATEWAY = os.path.join(TOP, "bin", "programs", "usr", "lib", "ifmail")
PATH = os.environ["PATH"] + ":/usr/sbin"
DATE = b"03 Jul 26  12:34:56\0"
LOCAL = 0x100


def missing(*programs):
    """The first of the programs that is not there."""
    for name in programs:
        if shutil.which(name, path=PATH) is None and not os.path.exists(os.path.join(GATEWAY, name)):
            return name
    return None


def folders(top, *names):
    """Makes folders."""
    for name in names:
        os.makedirs(os.path.join(top, name), exist_ok=True)


def run(words, given=b"", folder=None, settings=None):
    """Runs a program, and returns its status and what it printed."""
    done = subprocess.run(words, input=given, stdout=subprocess.PIPE, stderr=subprocess.STDOUT, timeout=120, check=False,
                          cwd=folder, env=dict(os.environ, PATH=PATH, **(settings or {})))
    return done.returncode, done.stdout.decode("latin-1")


class CrashMail:
    """A system of CrashMail II with areas and netmail in folders of stored messages."""

    ARCHIVERS = (
        'PACKER "ZIP" "/usr/bin/zip -q -j %a %f" "/usr/bin/unzip -q -j %a" "PK"',
        'PACKER "ARJ" "/usr/bin/arj a -e %a %f" "/usr/bin/arj e %a" "$60$EA"')

    def __init__(self, folder, address, nodes, areas, routes=()):
        """`nodes` are lines NODE, `areas` tags with the links of each."""
        self.folder, self.address = folder, address
        folders(folder, "inbound", "strangers", "partly", "outbound", "packets", "temp", "create", "msg/netmail", "msg/bad")
        lines = ["SYSOP \"Sysop\"", "LOGLEVEL 5", "DUPEMODE BAD", "LOOPMODE LOG", "MAXPKTSIZE 2000", "MAXBUNDLESIZE 2000",
                 "DEFAULTZONE 2", "CHECKSEENBY", "CHECKPKTDEST", "IMPORTSEENBY", *self.ARCHIVERS]
        lines += ['%s "%s/%s"' % (word, folder, name) for word, name in (
            ("LOGFILE", "log"), ("INBOUND", "inbound"), ("OUTBOUND", "outbound"), ("TEMPDIR", "temp"),
            ("CREATEPKTDIR", "create"), ("PACKETDIR", "packets"), ("STATSFILE", "stats"))]
        lines += ['DUPEFILE "%s/dupes" 60000' % folder, "AKA " + address, 'DOMAIN "fidonet"']
        lines += ["NODE " + line for line in nodes] + ["ROUTE " + line for line in routes]
        lines += ['NETMAIL "NETMAIL" %s MSG "%s/msg/netmail"' % (address, folder)]
        for tag, links in areas:
            folders(folder, "msg/" + tag.lower())
            lines += ['AREA "%s" %s MSG "%s/msg/%s"' % (tag, address, folder, tag.lower()), "EXPORT " + links]
        lines += ['AREA "BAD" %s MSG "%s/msg/bad"' % (address, folder)]
        write(os.path.join(folder, "prefs"), ("\n".join(lines) + "\n").encode("ascii"))

    def run(self, *words):
        """Runs it, in a second of its own: it names packets by the second."""
        time.sleep(1.02 - time.time() % 1)
        status, said = run(["crashmail", "SETTINGS", os.path.join(self.folder, "prefs"), *words])
        if status:
            raise RuntimeError("crashmail: %d %s" % (status, said))
        return said

    def write(self, area, to, subject, body, receiver=None):
        """Writes a message as an editor does. The first number stays free: CrashMail does not export it."""
        place = os.path.join(self.folder, "msg", area)
        number = max([1] + [int(os.path.basename(path)[:-4]) for path in glob.glob(place + "/*.msg")]) + 1
        kludges = kludges_of(numbers_of(self.address), numbers_of(receiver)) if receiver else b""
        write(os.path.join(place, "%d.msg" % number), stored(self.address, receiver or "0:0/0", to, subject, kludges + body))

    def texts(self, area):
        """The texts of an area."""
        return [read(path)[190:].rstrip(b"\0") for path in glob.glob(os.path.join(self.folder, "msg", area, "*.msg"))]


def stored(sender, receiver, to, subject, text):
    """A stored message as an editor writes it: Local."""
    own, other = numbers_of(sender), numbers_of(receiver)
    return struct.pack("<36s36s72s20s13H", b"Writer", to, subject, DATE, 0, other[2], own[2], 0, own[1], other[1],
                       other[0], own[0], other[3], own[3], 0, LOCAL, 0) + text + b"\0"


def kludges_of(sender, receiver):
    """The control lines of a letter that an editor writes."""
    lines = b"\1INTL %d:%d/%d %d:%d/%d\r" % (*receiver[:3], *sender[:3])
    if sender[3]:
        lines += b"\1FMPT %d\r" % sender[3]
    if receiver[3]:
        lines += b"\1TOPT %d\r" % receiver[3]
    return lines


def numbers_of(address):
    """Zone, net, node and point."""
    zone, rest = address.split(":")
    net, rest = rest.split("/")
    node, _, point = rest.partition(".")
    return int(zone), int(net), int(node), int(point or 0)


class Ifmail:
    """A gateway of ifmail. News come in by `ifnews`. What it receives goes to the file `news`, letters to `mail`."""

    def __init__(self, folder, address, link, password, areas):
        self.folder, self.link = folder, link
        folders(folder, "inbound", "strangers", "partly", "outbound", "spool")
        for name in ("news", "mail"):
            write(os.path.join(folder, name + ".sh"), b'#!/bin/sh\nexec cat >> "%s/%s"\n' % (os.fsencode(folder), name.encode()))
            os.chmod(os.path.join(folder, name + ".sh"), 0o755)
        maps = os.path.join(os.path.dirname(GATEWAY), "ifmail", "maptabs")
        lines = ["address " + address + "@fidonet", "packetpasswd %s %s" % (link, password), "magicname UUCP", "verbose 0",
                 "myfqdn gate.example", "defaultftnchar cp437", "defaultrfcchar iso-8859-1", "maxfsize 500000",
                 "maxpsize 300000", "maxmsize 123000", "domtrans .fidonet .ftn", "packer /usr/bin/zip -q9 $F $P",
                 "unzip /usr/bin/unzip -Lojq $F", "rnews %s/news.sh" % folder, "sendmail %s/mail.sh" % folder,
                 "iftoss %s/iftoss -I %s/config" % (GATEWAY, folder), "maptabdir " + maps, "areas %s/areas" % folder,
                 "gatebaugroup test."]
        lines += ["%s %s/%s" % (word, folder, name) for word, name in (
            ("logfile", "log"), ("debugfile", "debug"), ("inbound", "inbound"), ("listinbound", "inbound"),
            ("protinbound", "inbound"), ("outbound", "outbound"), ("public", "spool"), ("database", "spool/names"),
            ("sequencer", "spool/sequence"), ("newslog", "spool/newslog"), ("msgidbm", "spool/ids"),
            ("sysalias", "spool/aliases"))]
        write(os.path.join(folder, "config"), ("\n".join(lines) + "\n").encode("ascii"))
        write(os.path.join(folder, "areas"), "".join("%s test.%s world\n" % (tag, tag.lower()) for tag in areas).encode("ascii"))
        write(os.path.join(folder, "spool", "aliases"), b"")

    def run(self, program, *words, given=b""):
        """Runs one of its programs."""
        config = os.path.join(self.folder, "config")
        status, said = run([os.path.join(GATEWAY, program), "-I", config, *words], given, self.folder, {"NEWSSITE": self.receiver()})
        if status:
            raise RuntimeError("%s: %d %s" % (program, status, said))
        return said

    def receiver(self):
        """The link as ifmail writes it."""
        zone, net, node, _ = numbers_of(self.link)
        return "f%d.n%d.z%d.fidonet" % (node, net, zone)

    def write(self, tag, subject, body):
        """Posts an article to the link."""
        article = "From: writer@gate.example (Writer)\nNewsgroups: test.%s\nSubject: %s\nMessage-ID: <%s@gate.example>\n" \
                  "Date: Fri, 03 Jul 2026 12:34:56 +0000\nPath: gate.example!not-for-mail\n\n%s\n"
        self.run("ifnews", "-r", self.receiver(), given=(article % (tag.lower(), subject, subject, body)).encode("ascii"))

    def letter(self, name, subject, body):
        """Writes a letter to the link."""
        mail = "From: writer@gate.example (Writer)\nTo: %s@%s\nSubject: %s\nMessage-ID: <%s@gate.example>\n" \
               "Date: Fri, 03 Jul 2026 12:34:56 +0000\n\n%s\n" % (name, self.receiver(), subject, subject, body)
        self.run("ifmail", "-r", self.receiver(), "%s@%s" % (name, self.receiver()), given=mail.encode("ascii"))

    def pack(self):
        """Makes bundles of what waits."""
        self.run("ifpack")

    def toss(self):
        """Takes in what the mailer brought."""
        self.run("ifunpack")

    def news(self):
        """All that was received."""
        path = os.path.join(self.folder, "news")
        return read(path) if os.path.exists(path) else b""


class Binkd:
    """A mailer."""

    def __init__(self, config, folder):
        self.config, self.folder, self.running = config, folder, None

    def start(self):
        """Starts the daemon, with those that it starts in one group."""
        with open(os.path.join(self.folder, "binkd.out"), "wb") as out:
            self.running = subprocess.Popen(["binkd", self.config], stdout=out, stderr=out, stdin=subprocess.DEVNULL,
                                            env=dict(os.environ, PATH=PATH), start_new_session=True)

    def stop(self, how=signal.SIGKILL):
        """Ends it."""
        if self.running:
            try:
                os.killpg(self.running.pid, how)
            except ProcessLookupError:
                pass
            self.running.wait()
            self.running = None


def mailer_lines(folder, address, port, nodes, hook=None):
    """A configuration of binkd for a system of another tosser."""
    zone = numbers_of(address)[0]
    lines = ["domain fidonet %s/outbound %d" % (folder, zone), "address %s@fidonet" % address, 'sysname "x"', 'sysop "x"',
             'location "x"', "nodeinfo 115200,TCP,BINKP", "listen 127.0.0.1:%d" % port, "log %s/binkd.log" % folder, "loglevel 4",
             "rescan-delay 2", "call-delay 2", "inbound %s/inbound" % folder, "inbound-nonsecure %s/strangers" % folder,
             "temp-inbound %s/partly" % folder, "kill-dup-partial-files", "kill-old-bsy 12h"]
    lines += ["node %s@fidonet 127.0.0.1:%d %s" % node for node in nodes]
    if hook:
        lines.append('exec "%s" *.pkt *.mo? *.tu? *.we? *.th? *.fr? *.sa? *.su?' % hook)
    return "\n".join(lines) + "\n"
