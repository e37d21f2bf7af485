"""Tries `--assume`, `--assume-missing` and `--without` of `check`, `why` and `picture` on random nets. Some of their
systems send no file. Each answer is compared with that on files that the trial writes. For each assumed system it writes
one more file: with those who list it. For `--without` it writes the files anew, without these systems. It works out by
itself which lines follow: the assumed systems, those behind which nothing was seen, the parts that are cut off, and the
left out systems.

Argument: how many nets (1,000). SEED makes the same nets again.
"""
import os
import random
import re
import sys
import tempfile

from lib import making, running, topologies
from lib.contents import PROGRAM, write


def listers(told, tag, system):
    """The systems of the files that list this one in the area."""
    return {own for own, _, areas in told for name, links in areas if name == tag and system in links}


def has_area(told, tag):
    """Whether some file has the area."""
    return any(name == tag for _, _, areas in told for name, _ in areas)


class Question:
    """What the program is asked: a tag or all areas, and the options."""

    def __init__(self, chance, net, told):
        systems = [system for system, _, _ in net]
        self.told = told
        self.tag = chance.choice(topologies.TAGS) if chance.random() < 0.6 else None
        self.missing = chance.random() < 0.5
        self.named = chance.sample(systems, chance.randint(0 if self.missing else 1, 2)) if chance.random() < 0.8 else []
        known = {own for own, _, _ in told} | {link for _, _, areas in told for _, links in areas for link in links}
        self.out = chance.sample(sorted(known), min(len(known), chance.randint(1, 2))) if chance.random() < 0.5 else []
        self.tags = [self.tag] if self.tag else sorted({name for _, _, areas in told for name, _ in areas if self.concerns(name)})
        self.assumed = self.named + (self.absent() if self.missing else [])
        self.whole = told + [(system, None, self.areas(system)) for system in self.assumed]
        self.left = [(own, None, [(name, [link for link in links if link not in self.out]) for name, links in areas])
                     for own, _, areas in self.whole if own not in self.out] if self.out else self.whole

    def concerns(self, tag):
        """Whether all areas without some systems include this one."""
        files = {name for own, _, areas in self.told if own in self.out for name, _ in areas}
        return not self.out or tag in files or any(listers(self.told, tag, system) for system in self.out)

    def absent(self):
        """The systems that a file lists in these areas, that have no file, and that are not named."""
        listed = {link for _, _, areas in self.told for name, links in areas if name in self.tags for link in links}
        return sorted(listed - {own for own, _, _ in self.told} - set(self.named))

    def areas(self, system):
        """The areas of an assumed system."""
        return [(tag, sorted(listers(self.told, tag, system))) for tag in self.tags
                if (has_area(self.told, tag) if self.tag else listers(self.told, tag, system))]

    def words(self):
        """The options."""
        words = ["--assume-missing"] * self.missing
        for system in self.named:
            words += ["--assume", making.shown(system)]
        for system in self.out:
            words += ["--without", making.shown(system)]
        return words

    def cut(self, tag):
        """The parts of the area but the largest."""
        links = {(own, link) for own, _, areas in self.left for name, links in areas if name == tag for link in links}
        rest, parts = sorted({own for own, _, areas in self.left for name, _ in areas if name == tag}), []
        while rest:
            part, more = set(), [rest[0]]
            while more:
                system = more.pop()
                if system not in part:
                    part.add(system)
                    more += [other for other in rest if (system, other) in links and (other, system) in links]
            parts.append(sorted(part))
            rest = [system for system in rest if system not in part]
        largest = max(parts, key=len, default=None)
        return [part for part in parts if part is not largest] if self.out else []

    def tail(self, tag, begin=b"", drawn=False):
        """The lines after those of an area."""
        here = [system for system in self.assumed if self.tag or listers(self.told, tag, system)]
        lines = [["assumed", system] for system in here]
        unseen = sorted({system for system in here if system not in self.out}) if has_area(self.whole, tag) else []
        if len(unseen) > 1:
            lines.append(["unseen"] + unseen)
        if not drawn:
            lines += [["cut"] + part for part in self.cut(tag)]
        lines += [["without", system] for system in self.out]
        return b"".join(begin + " ".join([word] + [making.shown(system) for system in systems]).encode() + b"\n"
                        for word, *systems in lines)

    def is_alone(self, tag):
        """Whether only left out systems have the area."""
        return has_area(self.whole, tag) and not has_area(self.left, tag)


def put_all(folder, name, net):
    """Writes the files of a net, and returns their paths."""
    return [write(os.path.join(folder, "%s.%d" % (name, i)), making.link_file(system, areas, own))
            for i, (system, own, areas) in enumerate(net)]


def without_path(out, paths):
    """The lines of `why`, where these files have no path."""
    for path in paths:
        out = re.sub(rb"(?m)^(; \d+ is \S+) %s$" % re.escape(os.fsencode(path)), rb"\1", out)
    return out


def checked(question, runner, left, more):
    """The lines and the status that `check` has to print."""
    out, status, counts = b"", 0, [0, 0, 0]
    for tag in question.tags:
        if question.is_alone(tag):
            out += b"alone %s\n" % tag.encode()
            counts[0] += 1
        else:
            one = runner.run("check", *["--more"] * more, tag, "--links-from", left)
            out, status = out + one.out, max(status, one.status)
            counts[1 + one.status] += 1
        out += question.tail(tag)
    if more and not question.tag:
        out += b"areas %d yes %d no %d\n" % (sum(counts), counts[1], counts[2])
    return out, status


def shown_by(question, runner, command, left, extra):
    """The lines and the status that `why` or `picture` has to print."""
    begin = b"; " if command == "why" else b"// "
    if question.is_alone(question.tag):
        return b"graph {\n}\n// alone %s\n" % question.tag.encode() + question.tail(question.tag, begin, True), 0
    one = runner.run(command, question.tag, "--links-from", left)
    return without_path(one.out, extra) + question.tail(question.tag, begin, True), one.status


def without_colours(out):
    """A picture without the colours of its parts, which the tables of examples show."""
    return re.sub(rb'(?m)^"\S+" \[style=filled, fillcolor="/pastel19/[1-9]"\];\n', b"", out)


def same(words, ended, out, status, counts):
    """Compares an answer."""
    if (without_colours(ended.out), ended.status) != (out, status) or ended.fault or not ended.is_orderly(1):
        sys.exit("assumed.py: %s: %r, not %r" % (" ".join(words), ended, (out, status)))
    counts[status] += 1


def try_net(chance, folder, runner, counts):
    """Tries all commands on a net of which some systems send no file."""
    net = topologies.net(chance)
    silent = chance.sample([system for system, _, _ in net], chance.randint(1, 2))
    told = [one for one in net if one[0] not in silent or chance.random() < 0.05]
    if not told:
        return
    question = Question(chance, net, told)
    given = put_all(folder, "given", told)
    paths = given + put_all(folder, "more", question.whole[len(told):]) if not question.out else put_all(folder, "left", question.left)
    left = write(os.path.join(folder, "list"), b"".join(os.fsencode(path) + b"\0" for path in paths))
    more = chance.random() < 0.5
    words = ["check", *question.words(), *["--more"] * more, *([question.tag] if question.tag else ["--all"]), *given]
    same(words, runner.run(*words), *checked(question, runner, left, more), counts)
    commands = ("picture",) if question.out else ("why", "picture")
    for command in commands if question.tag else ():
        words = [command, *question.words(), question.tag, *given]
        same(words, runner.run(*words), *shown_by(question, runner, command, left, paths[len(told):]), counts)


def main():
    """Tries all nets, and prints how many answers were 0 and 1."""
    seed = int(os.environ.get("SEED", random.randrange(2 ** 32)))
    print("seed %d" % seed)
    chance = random.Random(seed)
    counts = [0, 0]
    with tempfile.TemporaryDirectory() as folder:
        runner = running.Runner(PROGRAM, folder)
        for _ in range(int(sys.argv[1]) if len(sys.argv) > 1 else 1000):
            try_net(chance, folder, runner, counts)
    print("assumed.py: %d answers with status 0, %d with 1" % tuple(counts))


if __name__ == "__main__":
    main()
