"""Compares `check --more` on random nets that have many faults at once with the definitions: two files of one address, links to
oneself, to nobody and to one side only, systems of one net and node, parts and loops. `--assume-missing` judges each net once
more, with the systems that no file is of.

Arguments: how many nets, 1,500 if none is given; and the seed.
"""
import os
import random
import subprocess
import sys
import tempfile

from lib.contents import PROGRAM
from small_nets import Area

POOL = [(zone, net, node) for zone in (1, 2) for net in (10, 20) for node in range(1, 9)]


def chance_net(chance):
    """The addresses, ascending, and files: the number of a system, and what it lists or None if it lacks the area."""
    size = chance.randint(3, 14)
    addresses = sorted(chance.sample(POOL, size))
    often, wrong = chance.choice((0.1, 0.2, 0.35)), chance.choice((0.0, 0.03, 0.15))
    lists = [set() for _ in range(size)]
    for one in range(size):
        for other in range(one):
            if chance.random() < often:
                lists[one].add(other)
                lists[other].add(one)
    files = []
    for one in range(size):
        for other in range(size):
            if chance.random() < wrong / 2:
                lists[one].symmetric_difference_update({other})
        if chance.random() < wrong:
            continue
        files.append((one, frozenset(lists[one]) if chance.random() > wrong / 2 else None))
        if chance.random() < wrong / 3:
            files.append((one, frozenset(chance.sample(sorted(lists[one]), len(lists[one]) // 2))))
    return tuple("%d:%d/%d" % address for address in addresses), files


def area_of(addresses, files):
    """The area: of two files of one address, a system lists what one of them lists."""
    lists = [None] * len(addresses)
    for one, listed in files:
        if listed is not None:
            lists[one] = (lists[one] or frozenset()) | listed
    return Area(addresses, tuple(lists))


def twice(files):
    """The systems with two files, ascending."""
    systems = [one for one, _ in files]
    return sorted({one for one in systems if systems.count(one) > 1})


def lines_of(addresses, files):
    """The first lines of `check --more`: the verdict, and the further faults."""
    area = area_of(addresses, files)
    if not area.carriers():
        found = ["V1 NoSuchArea"] + ["V2 TwoFiles " + addresses[one] for one in twice(files)]
    else:
        found = ["V2 TwoFiles " + addresses[one] for one in twice(files)] + area.faults()
    if found:
        return ["no TEST " + found[0]] + ["also " + fault for fault in found[1:]]
    return area.verdict("TEST")


def with_missing(addresses, files):
    """The files, and one for each address that is listed and has none: it lists who lists it."""
    area, known = area_of(addresses, files), {one for one, _ in files}
    missing = [one for one in range(len(addresses)) if one not in known and any(area.has(other, one) for other in area.carriers())]
    return files + [(one, frozenset(other for other in area.carriers() if area.has(other, one))) for one in missing]


def judged(addresses, files, words, folder):
    """What `check --more` prints of the area itself."""
    names = []
    for number, (one, listed) in enumerate(files):
        names.append(os.path.join(folder, "%d.links" % number))
        with open(names[-1], "w", encoding="ascii") as file:
            file.write("SYSTEM %s\n" % addresses[one])
            if listed is not None:
                file.write("AREA TEST%s\n" % "".join(" " + addresses[other] for other in sorted(listed)))
    ended = subprocess.run([PROGRAM, "check", "--more", *words, "TEST", *names], capture_output=True, check=False, text=True)
    return [line for line in ended.stdout.splitlines() if line.split(" ")[0] in ("yes", "no", "also")], ended.stderr


def main():
    """Tries the nets. The last line has the counts."""
    count, seed = (int(word) for word in (sys.argv[1:] + ["1500", "1"][len(sys.argv) - 1:])[:2])
    chance, tried, wrong, behind = random.Random(seed), 0, 0, 0
    with tempfile.TemporaryDirectory() as folder:
        for _ in range(count):
            addresses, files = chance_net(chance)
            if not files:
                continue
            for words, all_files in (((), files), (("--assume-missing",), with_missing(addresses, files))):
                wanted = lines_of(addresses, all_files)
                said, fault = judged(addresses, files, words, folder)
                tried += 1
                behind += any(line[5:7] in ("V7", "V8") for line in wanted[1:]) and wanted[0].split(" ")[2] < "V7"
                if said != wanted or fault:
                    wrong += 1
                    if wrong <= 5:
                        print(addresses, files, words, said, fault.strip(), "in place of", wanted)
    print("parts or loops behind another fault: %d nets" % behind)
    if not behind:
        wrong += 1
    print("every_fault.py: %d passed, %d failed" % (tried - wrong, wrong))
    return wrong > 0


if __name__ == "__main__":
    sys.exit(main())
