"""Judges what a tosser did with its input by the five rules of docs/INTEROP.md.

trials/lib/reading.py reads the received packets, the postings, the filed messages and the sent packets, by
docs/FORMATS.md. Each message of a trial has its own subject: two copies with one subject are one message.
"""
import functools
from collections import Counter
from typing import NamedTuple

from lib import making, reading

OWN = (1, 10, 2)
RULES = ("files once", "keeps", "sends once", "tells", "new keys")


@functools.lru_cache(maxsize=None)
def read_echo(text):
    """What a text says, or None if it is no echomail."""
    found = reading.read_text(text)
    return None if isinstance(found, str) else found


class Packed(NamedTuple):
    """A message in a packet."""
    date: bytes
    to: bytes
    by: bytes
    subject: bytes
    text: bytes

    def echo(self):
        """What its text says, or None if that is no echomail."""
        return read_echo(self.text)

    def key(self):
        """Its key: an id, or what replaces one."""
        return reading.key_of(self.echo(), self.names())

    def names(self):
        """Date, names and subject."""
        return self.date.split(b"\0")[0], self.to, self.by, self.subject

    def content(self):
        """The parts that have to arrive unchanged."""
        return self.names(), tuple(self.echo().kept)


class Given(NamedTuple):
    """A received message, or a posted one, which has no sender."""
    sender: tuple
    message: Packed


class Observed(NamedTuple):
    """Everything that is judged: the links of each system in each area, the input of the tosser, the subjects that it
    filed, the copies that it sent with their addressees, and a line for each of its packets that could not be
    read."""
    nets: dict
    given: list
    filed: list
    sent: list
    unreadable: list


def behind(links, link):
    """The systems that the tosser reaches through this link only."""
    reached, waiting = {OWN, link}, [OWN]
    while waiting:
        for system in links[waiting.pop()] - reached:
            reached.add(system)
            waiting.append(system)
    return set(links) - reached


def listed(addresses):
    """Addresses as text."""
    return " ".join(making.shown(address) for address in sorted(addresses))


class Judge:
    """Finds the broken rules, and what broke them."""

    def __init__(self, observed):
        self.observed, self.broken = observed, []
        self.history, self.first, self.due, self.contents = set(), {}, Counter(), {}
        self.filed = Counter(observed.filed)

    def breaks(self, rule, what):
        """Notes a broken rule."""
        self.broken.append((rule, what))

    def links(self, message):
        """The links of each system in the area of a message."""
        return self.observed.nets.get(message.echo().tag.decode(), {OWN: set()})

    def judge(self):
        """The broken rules, each with what broke it."""
        for given in self.observed.given:
            if given.message.echo() is not None:
                self.take(given)
        self.judge_filing()
        for subject, given in self.first.items():
            copies = [(to, copy) for to, copy in self.observed.sent if copy.subject == subject]
            self.judge_sending(given, [to for to, _ in copies])
            for to, copy in copies:
                self.judge_copy(given, to, copy, [other for other, _ in copies])
        for to, copy in self.observed.sent:
            if copy.subject not in self.first:
                self.breaks("keeps", "%s was sent what nobody wrote: %r" % (making.shown(to), copy.subject))
        for what in self.observed.unreadable:
            self.breaks("keeps", what)
        return self.broken

    def take(self, given):
        """What the tosser has to do with a received message."""
        message, subject = given.message, given.message.subject
        self.first.setdefault(subject, given)
        self.contents.setdefault(subject, []).append(message.content())
        if given.sender is None:
            self.judge_posting(message)
        is_linked = given.sender is None or given.sender in self.links(message)[OWN]
        if is_linked and message.key() not in self.history:
            self.first[subject] = given
            self.due[subject] += 1
            self.history.add(message.key())

    def judge_posting(self, message):
        """The rules "new keys" and "tells"."""
        if message.key() in self.history:
            self.breaks("new keys", "%r was posted with an id that is known" % message.subject)
        carriers = {link[1:] for link in self.links(message)} - {OWN[1:]}
        if carriers & message.echo().seen:
            self.breaks("tells", "%r was posted with others in SEEN-BY" % message.subject)

    def judge_filing(self):
        """The rule "files once"."""
        for subject in set(self.filed) | set(self.first):
            if self.filed[subject] != self.due[subject]:
                self.breaks("files once", "%r is filed %d times, not %d" % (
                    subject, self.filed[subject], self.due[subject]))

    def judge_sending(self, given, to):
        """The rule "sends once": a filed message goes to each link that did not send it and that its SEEN-BY
        lacks."""
        message, targets = given.message, []
        if self.filed[message.subject]:
            targets = [link for link in self.links(message)[OWN]
                       if link != given.sender and link[1:] not in message.echo().seen]
        if Counter(to) != Counter(targets):
            self.breaks("sends once", "%r went to (%s), not to (%s)" % (message.subject, listed(to), listed(targets)))

    def judge_copy(self, given, to, copy, all_to):
        """The rules "keeps" and "tells"."""
        what = "%r to %s" % (copy.subject, making.shown(to))
        if copy.echo() is None:
            self.breaks("keeps", what + ": it is no echomail")
            return
        if copy.key() != given.message.key() or copy.content() not in self.contents[copy.subject]:
            self.breaks("keeps", "%s: %r came of %r" % (what, copy.content(), given.message.content()))
        links, seen, had = self.links(given.message), copy.echo().seen, given.message.echo().seen
        if any(other in links.get(to, ()) and other[1:] not in seen for other in all_to):
            self.breaks("tells", what + ": a link of it that is sent the message too is not in SEEN-BY")
        hidden = {system[1:] for system in behind(links, to)}
        if hidden & (seen - had):
            self.breaks("tells", what + ": SEEN-BY has a system that only it can send to")
