"""The net around the tosser, messages, and the run of one trial."""
import zlib
from typing import NamedTuple

from lib import making
from judge import OWN, Given, Judge, Observed, Packed

ONE, THREE, FOUR, LEAF = ((1, 10, node) for node in (1, 3, 4, 21))
FAR = (2, 20, 5)
STRANGER = (1, 10, 9)


def net(polygon, leaves=()):
    """The links of each system. Systems of a polygon are linked with each other, and each leaf with one system."""
    links = {system: set(polygon) - {system} for system in polygon}
    for hub, leaf in leaves:
        links[hub].add(leaf)
        links[leaf] = {hub}
    return links


# The tosser and three others are linked with each other. It has a leaf of its own, the others have leaves.
LEAVES = ((OWN, LEAF), (ONE, (1, 10, 11)), (THREE, (1, 10, 31)), (FOUR, (1, 10, 41)))
NETS = {"TEST": net((OWN, ONE, THREE, FOUR), LEAVES), "OTHER": net((OWN, ONE))}
ZONES = {"TEST": net((OWN, ONE, THREE, FAR))}
# The SEEN-BY and the PATH of a message of 1:10/11 that 1:10/1 sends.
SEEN, PATH = ((10, 1), (10, 2), (10, 11)), ((10, 11), (10, 1))


def with_id(ident, *lines):
    """Lines of a message after a MSGID line."""
    return [b"\x01MSGID: " + ident, *lines]


def new_id(subject):
    """An id that no other subject has."""
    return b"1:10/11 %08x" % zlib.crc32(subject)


def message(subject, lines=None, tag=b"TEST", seen=SEEN, text=None, date=making.DATE, to=b"All", by=b"Zed"):
    """A message from a link. `lines` are all lines except those of area, SEEN-BY and PATH."""
    if lines is None:
        lines = with_id(new_id(subject), b"Hello", b"--- x", b" * Origin: x (1:10/11)")
    return Packed(date, to, by, subject, text if text is not None else making.text(tag, lines, seen, PATH))


class Run:
    """A trial of one tosser: its input and what it does with it."""

    def __init__(self, tosser):
        self.tosser, self.given, self.copies = tosser, [], []

    def packet(self, sender, *messages):
        """A packet of a system for the tosser."""
        self.given += [Given(sender, each) for each in messages]
        return making.packet(sender, OWN, [
            making.packed(sender, OWN, each.text, each.to, each.by, each.subject, each.date) for each in messages])

    def toss(self, sender, *messages):
        """Tosses a packet, and sends the messages of it that are due."""
        self.copies += self.tosser.toss(self.packet(sender, *messages))

    def post(self, subject, *lines):
        """Posts a message and sends it."""
        posted, copies = self.tosser.post("TEST", "All", "Bob", subject, list(lines))
        self.given.append(Given(None, posted))
        self.copies += copies

    def write_by_editor(self, number, written):
        """Puts a message of an editor into the folder of its area."""
        self.tosser.write_message(number, written)
        self.given.append(Given(None, written))

    def settle(self):
        """Sends what waits."""
        self.copies += self.tosser.settle()

    def broken(self):
        """The rules that were broken, and by what."""
        tosser = self.tosser
        observed = Observed(tosser.nets, self.given, tosser.filed(), self.copies, tosser.unreadable)
        return Judge(observed).judge()


class Trial(NamedTuple):
    """A trial: its rule, the rules that CrashMail breaks in it, its function, and the settings of a trial for
    CrashMail only."""
    rule: str
    breaks: frozenset
    act: object
    nets: dict
    for_all: bool
    settings: dict

    @property
    def name(self):
        """Its name in the table."""
        return self.act.__name__.replace("_", "-")

    @property
    def what(self):
        """What is tried."""
        return " ".join(self.act.__doc__.split())


def trials_of(rule):
    """A list of the trials for a rule, and a decorator that adds one. The arguments are the rules that CrashMail
    breaks there. `alone` marks trials for CrashMail only. Trials with settings are also for CrashMail only."""
    trials = []

    def trial(*breaks, nets=None, alone=False, **settings):
        def put(act):
            trials.append(Trial(rule, frozenset(breaks), act, nets or NETS, not (alone or settings), settings))
            return act
        return put
    return trials, trial
