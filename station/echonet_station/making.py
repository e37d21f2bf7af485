"""Makes the files of a new station. Nothing is ever overwritten."""
from __future__ import annotations

import os
import re
import shutil
from dataclasses import dataclass
from os.path import isdir, join, lexists

from fidonet.addresses import Address, address_of

from .calls import program
from .disk import Disk
from .faults import Status, Stopped
from .link_file import refusal
from .mailer import BUNDLE_MASKS
from .options import Given, given_by
from .peers import MOST_PASSWORD
from .program_path import whole_path
from .words import BY_NAME

FILES = ("links", "peers", "binkd.conf")
FOLDERS = ("base", "inbound", "strangers", "partly", "outbound")
# binkd and cron read these words: no blanks, quotes or signs with a meaning of their own.
PLAIN = re.compile(r"[!$%&()*+,\-./0-9:;<=>?@A-Z\[\]^_`a-z{|}~]+")
TAG = re.compile(r"[!-~]+")
PLAIN_PATH = re.compile(r"[\w./@+:,=-]+")


@dataclass(frozen=True)
class Order:
    """What the sysop wants."""

    folder: str
    own: Address
    name: str
    uplink: Address
    host: str
    password: str
    tags: list[str]
    sysop: str

    def links(self) -> str:
        """The link file."""
        areas = "".join("AREA %s %s\n" % (tag.upper(), self.uplink) for tag in self.tags)
        return "SYSTEM %s\nNAME %s\n%s" % (self.own, self.name, areas)

    def peers(self) -> str:
        """The file `peers`."""
        return "PEER %s PASSWORD %s PLUS\nROUTE %s\n" % (self.uplink, self.password[:MOST_PASSWORD], self.uplink)

    def mailer(self) -> str:
        """The configuration of binkd."""
        place, own = self.folder, self.own
        return "\n".join(
            (
                "domain fidonet %s/outbound %d" % (place, own.zone),
                "address %s@fidonet" % own,
                'sysname "%s"' % self.name,
                'sysop "%s"' % self.sysop,
                'location "-"',
                'nodeinfo 115200,TCP,BINKP',
                "log %s/binkd.log" % place,
                "pid-file %s/binkd.pid" % place,
                "inbound %s/inbound" % place,
                "inbound-nonsecure %s/strangers" % place,
                "temp-inbound %s/partly" % place,
                "check-pkthdr all .bad",
                "kill-dup-partial-files",
                "kill-old-bsy 12h",
                "node %s@fidonet %s %s" % (self.uplink, self.host, self.password),
                'exec "%s %s run" *.pkt *.ask *.ids %s' % (whole_path(), place, BUNDLE_MASKS),
                "",
            )
        )

    def next_steps(self) -> str:
        """What to do next."""
        place = self.folder
        cron = '*/5 * * * * %s%s %s run > /dev/null || echo "run: status $?"' % (with_path(), whole_path(), place)
        return "\n".join(
            (
                "made %s: links, peers, base, binkd.conf" % place,
                "cron: " + cron,
                "mailer: binkd -D %s/binkd.conf" % place,
                "mail to the sysop of %s:" % self.uplink,
                "",
                "  My node %s wants %s from you." % (self.own, " ".join(tag.upper() for tag in self.tags)),
                "  Password of sessions (binkp) and of packets: as agreed (that of packets is its first 8 characters).",
                "  Zip bundles and packets of type 2+ are fine. Netmail for %s to me." % self.own,
                "  Please add me to these areas.",
            )
        )


def with_path() -> str:
    """What a line of cron needs before it finds `echonet`."""
    found = shutil.which(program())
    folder = os.path.dirname(os.path.realpath(found)) if found else ""
    return "" if folder in ("", "/usr/bin", "/bin") else "PATH=$PATH:%s; " % folder


def check_name(what: str, name: str) -> None:
    """Refuses a name that binkd would read in another way."""
    if re.search(r'[\x00-\x1f\x7f"\\]', name):
        raise Stopped(Status.COMMAND, "the %s has a quote, a backslash or a control byte" % what)


def order_of(folder: str, given: Given) -> Order:
    """Reads the command line."""
    words, sysop = given.words, given.one("--sysop")
    own, uplink = address_of(words[0]), address_of(words[2])
    if own is None or uplink is None:
        raise Stopped(Status.COMMAND, "no address %s" % words[2 if own else 0])
    for what, word in (("host", words[3]), ("password", words[4])):
        if not PLAIN.fullmatch(word) or word.startswith("-"):
            raise Stopped(Status.COMMAND, "the %s has a blank, a quote or another sign that binkd reads" % what)
    check_name("name", words[1])
    check_name("name of the sysop", sysop)
    for tag in words[5:]:
        if not TAG.fullmatch(tag):
            raise Stopped(Status.COMMAND, "a tag has a blank or a control byte")
    place = os.path.realpath(folder)
    if not PLAIN_PATH.fullmatch(place):
        raise Stopped(Status.COMMAND, "the path of the station has a blank or another sign that binkd reads")
    return Order(place, own, words[1], uplink, words[3], words[4], words[5:], sysop or words[1])


def refuse_old(order: Order) -> None:
    """Refuses a folder that has any of the files, or messages."""
    for name in FILES:
        if lexists(join(order.folder, name)):
            raise Stopped(Status.REFUSED, "%s has a file %s" % (order.folder, name))
    base = join(order.folder, "base")
    if lexists(base) and not (isdir(base) and not os.listdir(base)):
        raise Stopped(Status.REFUSED, "%s has a base" % order.folder)


def put_new(disk: Disk, path: str, text: str) -> None:
    """Writes a file that nobody else may read. It is never put over another."""
    disk.write(path + ".new", text.encode("utf-8", "surrogateescape"))
    try:
        disk.link(path + ".new", path)
    except FileExistsError as fault:
        raise Stopped(Status.REFUSED, "%s is there already" % path) from fault
    finally:
        disk.unlink(path + ".new")


def check_links(disk: Disk, path: str, text: str) -> None:
    """Asks `echonet` about the link file before anything else is made."""
    disk.write(path, text.encode("utf-8", "surrogateescape"))
    try:
        fault = refusal(path, "links")
    finally:
        disk.unlink(path)
    if fault:
        raise fault


def new(folder: str, words: list[str]) -> int:
    """The command `new`."""
    order, disk = order_of(folder, given_by(BY_NAME["new"], words)), Disk()
    links, peers, mailer = order.links(), order.peers(), order.mailer()
    refuse_old(order)
    os.umask(0o077)
    disk.make_folder(order.folder)
    check_links(disk, join(order.folder, "links.trial"), links)
    for name in FOLDERS:
        disk.make_folder(join(order.folder, name))
    put_new(disk, join(order.folder, "peers"), peers)
    put_new(disk, join(order.folder, "binkd.conf"), mailer)
    put_new(disk, join(order.folder, "links"), links)
    disk.sync(order.folder)
    print(order.next_steps())
    return Status.GOOD
