"""Trials for "sends once"."""
import os

from lib import making
from lib.contents import write
from crashmail import wait_for_second, within_a_second
from trying import FAR, ONE, OWN, SEEN, THREE, ZONES, message, net, new_id, trials_of, with_id

TRIALS, trial = trials_of("sends once")


@trial()
def who_is_seen(run):
    """SEEN-BY has none, one, two or all of the links, or all but the sender"""
    run.toss(ONE, message(b"One"), message(b"Two", seen=SEEN + ((10, 3),)), message(b"None", seen=()),
             message(b"All", seen=SEEN + ((10, 3), (10, 4), (10, 21))), message(b"Sender", seen=((10, 11),)))


@trial()
def same_node(run):
    """SEEN-BY has systems of other nets with the nodes of links"""
    run.toss(ONE, message(b"Net", seen=SEEN + ((11, 3), (1, 3), (103, 3), (10, 31), (10, 32768 + 3))))


@trial()
def sent_again(run):
    """runs that have nothing to do, after a message that came and one that was posted"""
    run.toss(ONE, message(b"Came"))
    run.post(b"Posted", b"Hello")
    run.settle()
    run.settle()
    run.toss(ONE)


@trial(alone=True)
def busy_link(run):
    """the mailer holds a link (NAME.bsy) while a message comes, and not in the next run"""
    hold = run.tosser.path("outbound/000a0003.bsy")
    write(hold, b"")
    run.toss(ONE, message(b"Held"))
    os.remove(hold)
    wait_for_second()
    run.toss(ONE)


@trial("sends once", "keeps", alone=True)
def rescan(run):
    """RESCAN for a link: it is sent all again with a further control line, also its own messages"""
    run.toss(ONE, message(b"Came"))
    run.toss(THREE, message(b"Its own"))
    run.tosser.run("RESCAN", "TEST", "RESCANNODE", making.shown(THREE))
    run.copies += run.tosser.sent()


@trial("sends once")
def rescanned(run):
    """a message has a control line RESCANNED, as of the rescan of a link: it is sent to no link"""
    subject = b"Rescanned"
    run.toss(ONE, message(subject, with_id(new_id(subject), b"\x01RESCANNED 1:10/1", b"Hello")))


@trial("sends once", alone=True)
def one_second(run):
    """two runs within one second: their packets have the same names, and those of the first are lost"""
    def toss_twice(number):
        run.copies += run.tosser.sent()
        for subject in (b"First %d", b"Second %d"):
            run.tosser.bring(run.packet(ONE, message(subject % number)))
            run.tosser.run("TOSS")
    within_a_second(toss_twice)
    run.copies += run.tosser.sent()


@trial("sends once")
def no_blank(run):
    """SEEN-BY:10/3, without a blank, and a tab between entries: the systems in it are sent the message"""
    for subject, line in ((b"No blank", b"SEEN-BY:10/3"), (b"Tab", b"SEEN-BY: 10/1\t10/3")):
        text = making.text(b"TEST", with_id(new_id(subject), b"Hello"), [], [])
        run.toss(ONE, message(subject, text=text + line + b"\r"))


@trial("sends once", "keeps")
def long_seen_line(run):
    """a SEEN-BY line of more than 198 bytes: the rest of it counts as a body line"""
    text = making.text(b"TEST", with_id(new_id(b"Long"), b"Hello"), [], [])
    entries = b"".join(b" 10/%d" % node for node in (1, 2, 11, *range(10000, 10030), 3))
    run.toss(ONE, message(b"Long", text=text + b"SEEN-BY:" + entries + b"\r"))


@trial("sends once", nets=ZONES)
def from_other_zone(run):
    """a message of a link in another zone: its SEEN-BY is dropped, and the systems in it are sent it again"""
    run.toss(FAR, message(b"Far", seen=((10, 1), (10, 2), (20, 5))))


@trial(alone=True)
def by_editor(run):
    """a message that an editor wrote, and two runs of SCAN"""
    run.write_by_editor(2, message(b"Own", with_id(b"1:10/2 00000001", b"Hello"), seen=()))
    run.settle()
    run.settle()


@trial("sends once", alone=True)
def first_of_folder(run):
    """the same as 1.msg, as in an empty folder: it is never sent"""
    run.write_by_editor(1, message(b"Own", with_id(b"1:10/2 00000001", b"Hello"), seen=()))
    run.settle()


@trial(without=("MAXPKTSIZE",), adding=("MAXPKTSIZE 1",))
def small_packets(run):
    """MAXPKTSIZE 1: five messages of 1 kB"""
    run.toss(ONE, *[message(b"Number %d" % n, with_id(b"1:10/11 %08x" % n, b"x" * 1000)) for n in range(5)])


@trial("sends once", without=("MAXPKTSIZE",), adding=("MAXPKTSIZE 1",), nets={"TEST": net((OWN, ONE, THREE))})
def many_packets(run):
    """MAXPKTSIZE 1: 600 messages of 1 kB. Of 257 packets in a second the last has the name of the first"""
    run.toss(ONE, *[message(b"Number %d" % n, with_id(b"1:10/11 %08x" % n, b"x" * 1000)) for n in range(600)])


@trial("sends once", without=("CHECKSEENBY",))
def no_checkseenby(run):
    """no CHECKSEENBY: the systems in SEEN-BY are sent the message"""
    run.toss(ONE, message(b"Seen", seen=SEEN + ((10, 3),)))


@trial("sends once", area=("IGNORESEENBY",))
def ignoreseenby(run):
    """IGNORESEENBY at the area: so too"""
    run.toss(ONE, message(b"Seen", seen=SEEN + ((10, 3),)))


@trial("sends once", node={THREE: "PASSIVE"})
def passive(run):
    """PASSIVE at a link: it is sent nothing"""
    run.toss(ONE, message(b"Missed"))


@trial("sends once", link={THREE: "@"})
def write_only(run):
    """@ before a link in the EXPORT line: it is sent nothing"""
    run.toss(ONE, message(b"Missed"))
