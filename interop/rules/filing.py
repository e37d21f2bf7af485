"""Trials for "files once"."""
import os
import signal
import subprocess
import time

from lib.contents import read, write
from trying import FOUR, ONE, OWN, STRANGER, THREE, message, net, trials_of, with_id

TRIALS, trial = trials_of("files once")


@trial()
def from_a_link(run):
    """two messages come from a link in one packet"""
    run.toss(ONE, message(b"First"), message(b"Second"))


@trial()
def again(run):
    """a message comes three times: twice in one packet, then from another link"""
    run.toss(ONE, message(b"Again"), message(b"Again"))
    run.toss(THREE, message(b"Again"))


@trial()
def stranger(run):
    """messages come from a link of another area, from a system that is no link, and from its own address"""
    run.toss(THREE, message(b"Not its area", tag=b"OTHER"))
    run.toss(STRANGER, message(b"Nobody's"))
    run.toss(OWN, message(b"Its own"))


@trial()
def unknown_area(run):
    """a message comes in an area that is not there"""
    run.toss(ONE, message(b"Unknown", tag=b"ELSEWHERE"))


@trial()
def torn(run):
    """a packet comes cut within its second message, then whole"""
    first, second = message(b"First"), message(b"Second")
    run.copies += run.tosser.toss(run.packet(ONE, first)[:-2] + run.packet(ONE, second)[58:-20])
    run.given.pop()
    run.toss(ONE, first, second)


@trial()
def two_areas(run):
    """one id comes in two areas"""
    run.toss(ONE, message(b"Here", with_id(b"1:10/11 00000001", b"Hello")))
    run.toss(ONE, message(b"There", with_id(b"1:10/11 00000001", b"Hello"), tag=b"OTHER"))


@trial("files once")
def long_ids(run):
    """two ids differ only behind their first 79 bytes: the second message is taken for the first"""
    long = b"a" * 80
    run.toss(ONE, message(b"First", with_id(long + b"1 00000001", b"Hello")))
    run.toss(ONE, message(b"Second", with_id(long + b"2 00000001", b"Hello")))


@trial("files once", "sends once")
def no_id(run):
    """a message without an id comes twice: it is filed and sent twice"""
    run.toss(ONE, message(b"Nameless", [b"Hello"]))
    run.toss(ONE, message(b"Nameless", [b"Hello"]))


@trial("files once")
def two_id_lines(run):
    """two messages differ in the first of two MSGID lines: the second is taken for the first"""
    for number in (b"1", b"2"):
        lines = with_id(b"1:10/11 0000000" + number, b"Hello", *with_id(b"1:10/11 00000009"))
        run.toss(ONE, message(b"Number " + number, lines))


@trial("files once")
def id_without_blank(run):
    """two ids differ in the first byte behind ^AMSGID: the second message is taken for the first"""
    for subject, ident in ((b"First", b"x1 00000001"), (b"Second", b"y1 00000001")):
        run.toss(ONE, message(subject, [b"\x01MSGID:" + ident, b"Hello"]))


@trial("files once", "sends once")
def blank_at_the_end(run):
    """a message comes again, with a blank behind its id: it is filed and sent again"""
    run.toss(ONE, message(b"Blank", with_id(b"1:10/11 00000001", b"Hello")))
    run.toss(ONE, message(b"Blank", with_id(b"1:10/11 00000001 ", b"Hello")))


@trial("files once", "sends once")
def small_letters(run):
    """a message comes again, with its tag in small letters: it is filed and sent again"""
    run.toss(ONE, message(b"Small"), message(b"Small", tag=b"test"))


@trial("files once")
def short_date(run):
    """a date is short and filled with 00: the message and those behind it are lost"""
    run.toss(ONE, message(b"Short", date=b"3 Jul 26 12:34:56\0\0\0"), message(b"Behind it"))


@trial("files once", "sends once", alone=True)
def own_comes_back(run):
    """a message of an editor, sent by SCAN, is received from a link: it is filed and sent again"""
    own = message(b"Own", with_id(b"1:10/2 00000001", b"Hello"), seen=())
    run.write_by_editor(2, own)
    run.settle()
    run.toss(ONE, own)


def kill_between_packets(run):
    """Kills a run after it tossed its first packet and before it tosses its second."""
    tosser, reached = run.tosser, run.tosser.path("reached")
    tosser.bring(run.packet(ONE, message(b"First"), message(b"Second")), run.packet(THREE, message(b"Third")))
    write(tosser.path("keep.sh"), b"#!/bin/sh\ncase $1 in *%x.pkt) : > %s; sleep 60 ;; esac\n" % (
        tosser.brought - 1, reached.encode()))
    with subprocess.Popen(["crashmail", "SETTINGS", tosser.path("prefs"), "TOSS"], stdout=subprocess.DEVNULL,
                          start_new_session=True) as process:
        while not os.path.exists(reached) and process.poll() is None:
            time.sleep(0.01)
        os.killpg(process.pid, signal.SIGKILL)
    write(tosser.path("keep.sh"), b"#!/bin/sh\n")
    os.remove(tosser.path("prefs.busy"))


@trial("files once", "sends once", alone=True)
def stopped(run):
    """a run is killed between two packets: one message is never sent, one is filed again by the next run"""
    kill_between_packets(run)
    run.toss(FOUR)


@trial("files once", alone=True)
def dupefile_put_back(run):
    """so too, but the DUPEFILE of before is put back: all is sent once, what was filed is filed again"""
    run.toss(ONE, message(b"Before"))
    before = read(run.tosser.path("dupes"))
    kill_between_packets(run)
    write(run.tosser.path("dupes"), before)
    run.toss(FOUR)


@trial("files once", "sends once", without=("DUPEFILE",), adding=('DUPEFILE "FOLDER/dupes" 20',))
def forgets(run):
    """DUPEFILE with 20: a message that comes again after 20 others is filed and sent again"""
    run.toss(ONE, message(b"First"))
    run.toss(ONE, *[message(b"Number %d" % number) for number in range(20)])
    run.toss(ONE, message(b"First"))


@trial("files once", without=("DUPEFILE",), adding=('DUPEFILE "FOLDER/dupes" 100000',),
       nets={"TEST": net((OWN, ONE))})
def keeps_no_more(run):
    """DUPEFILE with 100000: of 65,537 messages the last is filed each time that it comes"""
    many = [message(b"Number %d" % number, text=b"AREA:TEST\r\x01MSGID: 1:10/11 %08x\r" % number)
            for number in range(65537)]
    run.toss(ONE, *many)
    run.toss(ONE, many[-1])


@trial("files once", "sends once", without=("DUPEMODE",), adding=("DUPEMODE IGNORE",))
def dupemode_ignore(run):
    """DUPEMODE IGNORE: a message that comes twice is filed and sent twice"""
    run.toss(ONE, message(b"Twice"), message(b"Twice"))


@trial("files once", "sends once", area=("IGNOREDUPES",))
def ignoredupes(run):
    """IGNOREDUPES at the area: so too"""
    run.toss(ONE, message(b"Twice"), message(b"Twice"))


@trial("files once", link={ONE: "!"})
def read_only(run):
    """! before a link in the EXPORT line: what it sends is not filed"""
    run.toss(ONE, message(b"Unwanted"))
