"""Does what the notes of `check --explain` say, on random nets of 3 to 6 systems with one fault each, until `check` says yes.

A net in order is made of groups whose systems are all linked, any two groups with at most one system in common. Then it gets a
fault of one kind, V1 to V8. A note has to have one of the eight sentences. Its file and line have to be those of a line AREA of
the area, which names the system that is to be removed. Where a note offers two cures, half of the nets take each. No net may
need more than MOST cures. A step of each kind has to occur, by each cure.

Arguments: how many nets, 800 if none is given; and the seed.
"""
import collections
import os
import random
import re
import subprocess
import sys
import tempfile

from lib.contents import PROGRAM

MOST = 15
ADDRESS = r"(\d+:\d+/\d+)"
SENTENCES = {
    "V1": r"no file has TEST: add an AREA line, or look at the spelling",
    "V2": r"(?P<path>\S+) and (?P<other>\S+) are both of %s: remove one, or correct its SYSTEM line" % ADDRESS,
    "V2 twice": r"(?P<path>\S+) was given twice",
    "V3": r"(?P<path>\S+):(?P<line>\d+): %s lists itself: remove it there" % ADDRESS,
    "V4": r"(?P<path>\S+):(?P<line>\d+): %s lists %s, which no file with TEST is of: give its file, or remove it there" % (ADDRESS, ADDRESS),
    "V5": r"(?P<path>\S+):(?P<line>\d+) lists %s, and (?P<back>\S+):(?P<back_line>\d+) does not list %s: add it there, or remove %s "
          r"from (?P<again>\S+:\d+)\. Mail is lost" % (ADDRESS, ADDRESS, ADDRESS),
    "V6": r"SEEN-BY cannot tell %s from %s: give one another address\. Mail may be lost" % (ADDRESS, ADDRESS),
    "V7": r"no chain of links leads from %s to %s: link them, in both files\. Mail is lost" % (ADDRESS, ADDRESS),
    "V8": r"(?P<loop>\S+(?:, \S+)+) form a loop, and %s and %s are not linked: remove a link of the loop, or add the missing ones, in "
          r"both files\. Mail is sent twice" % (ADDRESS, ADDRESS),
}


class Files:
    """The link files of a net, which are edited line by line."""

    def __init__(self, chance, folder, addresses, links):
        self.folder, self.paths, self.away = folder, [], {}
        for number, address in enumerate(addresses):
            listed = sorted(addresses[other] for other in range(len(addresses)) if {number, other} in links)
            lines = ["SYSTEM " + address, "AREA TEST" + "".join(" " + other for other in listed)]
            chance.shuffle(lines)
            for extra in ("; AREA TEST " + address, "", "AREA OTHER " + address, "NAME " + address):
                if chance.random() < 0.5:
                    lines.insert(chance.randint(0, len(lines)), extra)
            self.paths.append(os.path.join(folder, "%d.links" % number))
            self.put(self.paths[-1], lines)

    @staticmethod
    def lines(path):
        """The lines of a file."""
        with open(path, encoding="ascii") as file:
            return file.read().split("\n")[:-1]

    @staticmethod
    def put(path, lines):
        """Writes the lines of a file."""
        with open(path, "w", encoding="ascii") as file:
            file.write("".join(line + "\n" for line in lines))

    def change(self, path, number, change):
        """Changes the links on a line of the area, which is counted from 1. A wrong line stops the trial of the net."""
        lines = self.lines(path)
        words = lines[number - 1].split()
        assert words[:2] == ["AREA", "TEST"], "%s:%d is no line of the area" % (path, number)
        lines[number - 1] = " ".join(words[:2] + change(words[2:]))
        self.put(path, lines)

    def remove(self, path, number, address):
        """Removes a link from a line."""
        def change(listed):
            assert address in listed, "%s:%d does not list %s" % (path, number, address)
            return [other for other in listed if other != address]
        self.change(path, number, change)

    def add(self, path, number, address):
        """Adds a link to a line."""
        def change(listed):
            assert address not in listed, "%s:%d lists %s" % (path, number, address)
            return listed + [address]
        self.change(path, number, change)

    def line_of(self, address):
        """The file of a system, and the number of its line of the area."""
        (path,) = [path for path in self.paths if "SYSTEM " + address in self.lines(path)]
        return path, [line.split()[:2] for line in self.lines(path)].index(["AREA", "TEST"]) + 1

    def set_link(self, one, other, is_linked):
        """Puts a link into both files, or removes it from both."""
        for here, there in ((one, other), (other, one)):
            (self.add if is_linked else self.remove)(*self.line_of(here), there)

    def lists(self, one, other):
        """Does the first system list the second?"""
        path, number = self.line_of(one)
        return other in self.lines(path)[number - 1].split()[2:]

    def rename(self, old, new):
        """Gives a system another address, in each file."""
        for path in self.paths:
            self.put(path, [" ".join(new if word == old else word for word in line.split(" ")) for line in self.lines(path)])


def tidy_net(chance, size):
    """Links of groups whose systems are all linked. A further group has one system of those before it."""
    links, known = [], [0]
    while len(known) < size:
        fresh = list(range(len(known), min(size, len(known) + chance.randint(1, 3))))
        group = [chance.choice(known)] + fresh
        links += [{one, other} for one in group for other in group if one < other]
        known += fresh
    return links


def break_net(chance, files, addresses, links, kind):
    """Puts a fault of this kind into the files. Says whether the net has room for it."""
    one, other = chance.sample(addresses, 2)
    if kind == "V1":
        for path in files.paths:
            files.put(path, [line.replace("AREA TEST", "AREA TESTS") for line in files.lines(path)])
    elif kind == "V2":
        path = chance.choice(files.paths)
        if chance.random() < 0.5:
            files.paths.append(path)
        else:
            files.paths.append(os.path.join(files.folder, "again.links"))
            files.put(files.paths[-1], files.lines(path))
    elif kind == "V3":
        files.add(*files.line_of(one), one)
    elif kind == "V4":
        if chance.random() < 0.5:
            files.add(*files.line_of(one), "1:10/99")
        else:
            path, _ = files.line_of(one)
            files.paths.remove(path)
            files.away[one] = path
    elif kind == "V5":
        here, there = (addresses[number] for number in chance.choice(links))
        files.remove(*files.line_of(here), there)
    elif kind == "V6":
        files.rename(one, "2" + other[other.index(":"):])
    elif kind == "V7":
        files.set_link(*(addresses[number] for number in chance.choice(links)), False)
    else:
        apart = [pair for pair in ({a, b} for a in range(len(addresses)) for b in range(a)) if pair not in links]
        if not apart:
            return False
        files.set_link(*(addresses[number] for number in chance.choice(apart)), True)
    return True


def cure(files, note, is_second):
    """Does what the note says: its first cure or its second. Returns which sentence it is, and which cure was taken."""
    for kind, sentence in SENTENCES.items():
        found = re.fullmatch(sentence, note)
        if found:
            break
    else:
        raise AssertionError("no sentence: " + note)
    parts, named = found.groupdict(), [word for word in found.groups() if word and re.fullmatch(ADDRESS, word)]
    place = (parts["path"], int(parts["line"])) if parts.get("line") else None
    if kind == "V1":
        files.put(files.paths[0], files.lines(files.paths[0]) + ["AREA TEST"])
        return kind, 0
    if kind in ("V2", "V2 twice"):
        last = len(files.paths) - 1 - files.paths[::-1].index(parts["other"] if kind == "V2" else parts["path"])
        del files.paths[last]
        return kind, 0
    if kind == "V3":
        files.remove(*place, named[0])
        return kind, 0
    if kind == "V4":
        if not is_second and named[1] in files.away:
            files.paths.append(files.away.pop(named[1]))
            return kind, 0
        files.remove(*place, named[1])
        return kind, 1
    if kind == "V5":
        assert named[0] == named[2] and parts["again"] == "%s:%d" % place, note
        if is_second:
            files.remove(*place, named[0])
            return kind, 1
        files.add(parts["back"], int(parts["back_line"]), named[1])
        return kind, 0
    if kind == "V6":
        files.rename(named[1], "1:10/98")
        return kind, 0
    if kind == "V7":
        files.set_link(*named, True)
        return kind, 0
    loop = parts["loop"].split(", ")
    assert not (files.lists(named[-2], named[-1]) and files.lists(named[-1], named[-2])), note
    if not is_second:
        files.set_link(loop[0], loop[1], False)
        return kind, 0
    for number, one in enumerate(loop):
        for other in loop[:number]:
            if not files.lists(one, other):
                files.set_link(one, other, True)
    return kind, 1


def check(paths):
    """The status of `check --explain`, its line, and its notes."""
    ended = subprocess.run([PROGRAM, "check", "--explain", "TEST", *paths], capture_output=True, check=False, text=True)
    notes = ended.stderr.splitlines()
    assert all(note.startswith("echonet: note: ") for note in notes), ended.stderr
    return ended.returncode, ended.stdout, [note[len("echonet: note: "):] for note in notes]


def cured(chance, folder, kind, is_second):
    """Cures a random net with a fault of this kind. Returns the cures, or None if the net has no room for the fault."""
    size = chance.randint(3, 6)
    addresses = ["1:10/%d" % number for number in range(1, size + 1)]
    links = tidy_net(chance, size)
    files = Files(chance, folder, addresses, links)
    status, said, notes = check(files.paths)
    assert (status, notes) == (0, []), said
    if not break_net(chance, files, addresses, links, kind):
        return None
    taken = []
    while True:
        status, said, notes = check(files.paths)
        if status == 0:
            assert said.startswith("yes TEST ") and not notes, said
            return taken
        assert status == 1 and len(notes) == 1 and len(taken) < MOST, (said, notes, taken)
        taken.append(cure(files, notes[0], is_second))
        assert said.startswith("no TEST %s " % taken[-1][0][:2]) or said == "no TEST V1 NoSuchArea\n", (said, notes)


def main():
    """Tries the nets. The last line has the counts."""
    count, seed = (int(word) for word in (sys.argv[1:] + ["800", "1"][len(sys.argv) - 1:])[:2])
    chance, passed, failed, steps = random.Random(seed), 0, 0, collections.Counter()
    for number in range(count):
        kind, is_second = "V%d" % (number % 8 + 1), number // 8 % 2 == 1
        with tempfile.TemporaryDirectory() as folder:
            try:
                taken = cured(chance, folder, kind, is_second)
            except AssertionError as error:
                failed += 1
                print(kind, error)
                continue
        if taken is not None:
            passed += 1
            steps.update(taken)
            if not taken and kind not in ("V7", "V8"):
                failed += 1
                print(kind, "made no fault")
    wanted = {(kind, 0) for kind in SENTENCES} | {("V4", 1), ("V5", 1), ("V8", 1)}
    for step in sorted(wanted - set(steps)):
        failed += 1
        print("no net needed cure %d of %s" % (step[1] + 1, step[0]))
    print(", ".join("%s cure %d: %d" % (kind, which + 1, times) for (kind, which), times in sorted(steps.items())))
    print("cures.py: %d passed, %d failed" % (passed, failed))
    return failed > 0


if __name__ == "__main__":
    sys.exit(main())
