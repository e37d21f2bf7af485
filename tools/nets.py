"""Link files of a net, and what `echonet check` says of its areas."""
import os
import re
import subprocess
from typing import Iterable, NamedTuple, Optional

Address = tuple[int, int, int]
Pair = tuple[Address, Address]

COSTS = {"V1": "the file is wrong", "V2": "the file is wrong", "V3": "the file is wrong", "V4": "mail may be lost", "V5": "mail is lost",
         "V6": "mail may be lost", "V7": "mail is lost", "V8": "mail is sent twice"}
HARM = ("mail is lost", "mail may be lost", "mail is sent twice", "the file is wrong", "")
# Characters that change how a terminal or a browser shows others.
HIDDEN = re.compile("[\0-\x1f\x7f-\x9f\u200e\u200f\u202a-\u202e\u2066-\u2069\ud800-\udfff]")
# A comment of links-seen on a link of the AREA line that follows.
SEEN_LINE = re.compile(r"; ([0-9]+:[0-9]+/[0-9]+) ([0-9]+) messages, last (\S+)\r?")
# A faulty line of a link file, as `echonet links` prints it.
NOTE = "echonet: note: "
PLACE = re.compile(r":[0-9]+: [LX][0-9]+ ")


class Failed(Exception):
    """What the program refuses: its status and its lines on standard error."""

    def __init__(self, status: int, lines: str) -> None:
        super().__init__(lines)
        self.status, self.lines = status, lines


class Seen(NamedTuple):
    """What links-seen says of a link: how many messages took it, and the day of the last one."""
    messages: int
    last: str


class AreaLine(NamedTuple):
    """An AREA line of a file: its number, its links, its text, and what the comments before it say of links."""
    number: int
    links: tuple[Address, ...]
    text: str
    seen: dict[Address, Seen] = {}


class LinkFile(NamedTuple):
    """A link file: its path, its system, the number and text of the SYSTEM line, its name or nothing, and its areas."""
    path: str
    system: Address
    number: int
    text: str
    name: str
    areas: dict[str, AreaLine]


class Fault(NamedTuple):
    """A verdict: its code, its name and its addresses."""
    code: str
    name: str
    addresses: tuple[Address, ...]


class Verdict(NamedTuple):
    """What `check` says of an area: the faults, the assumed systems, those of them behind which nothing was seen, and
    all lines as printed."""
    tag: str
    faults: tuple[Fault, ...]
    assumed: tuple[Address, ...]
    unseen: tuple[Address, ...]
    lines: tuple[str, ...]

    def cost(self) -> str:
        """The greatest cost of its faults, or nothing."""
        return min((COSTS[fault.code] for fault in self.faults), key=HARM.index, default="")


def shown(address: Address) -> str:
    """An address as text."""
    return "%d:%d/%d" % address


def plain(text: str) -> str:
    """A text without hidden characters: each is its number in hexadecimal digits, as the program prints bytes."""
    return HIDDEN.sub(lambda found: "".join("\\x%02x" % byte for byte in found[0].encode("utf-8", "surrogateescape"
                      if "\udc80" <= found[0] <= "\udcff" else "surrogatepass")), text)


def address_in(word: str) -> Address:
    """The address that a word is."""
    zone, net, node = re.split("[:/]", word)
    return int(zone), int(net), int(node)


def read_file(path: str) -> LinkFile:
    """Reads a link file that `check` does not refuse."""
    with open(path, "rb") as file:
        lines = file.read().decode("utf-8", "surrogateescape").split("\n")
    system, number, name, areas = (0, 0, 0), 0, "", {}
    seen: dict[Address, Seen] = {}
    for at, line in enumerate(lines, 1):
        comment = SEEN_LINE.fullmatch(line)
        if comment:
            seen[address_in(comment[1])] = Seen(int(comment[2]), comment[3])
            continue
        words = [] if line.startswith(";") else re.split("[ \t\r]+", line.strip(" \t\r"))
        if words[:1] == ["SYSTEM"]:
            system, number = address_in(words[1]), at
        elif words[:1] == ["NAME"]:
            name = plain(line.strip(" \t\r")[4:].strip(" \t"))
        elif words[:1] == ["AREA"]:
            areas[words[1].upper()] = AreaLine(at, tuple(address_in(word) for word in words[2:]), line.strip(" \t\r"), seen)
            seen = {}
    return LinkFile(plain(path), system, number, lines[number - 1].strip(" \t\r"), name, areas)


class Program:
    """The program, by the variable ECHONET or on the PATH."""

    def __init__(self, paths: list[str], options: list[str]) -> None:
        self.name = os.environ.get("ECHONET", "echonet")
        self.paths, self.options = paths, options

    def run(self, command: str, *words: str, paths: Optional[Iterable[str]] = None) -> str:
        """Runs a command on link files, and returns its lines. Raises Failed with a status over 1."""
        given = b"".join(os.fsencode(path) + b"\0" for path in (self.paths if paths is None else paths))
        try:
            done = subprocess.run([self.name, command, "--links-from", "-", *words], input=given, stdout=subprocess.PIPE,
                                  stderr=subprocess.PIPE, check=False)
        except OSError as error:
            raise Failed(3, "cannot run %s: %s\n" % (self.name, error.strerror)) from error
        if done.returncode > 1 or done.returncode < 0:
            raise Failed(done.returncode if done.returncode > 0 else 3, done.stderr.decode("utf-8", "replace"))
        return done.stdout.decode("utf-8", "replace")

    def faults_of_files(self, failed: Failed) -> str:
        """The lines of a failure. For faulty link files others name the files and the lines, and a note says what to do."""
        if failed.status != 2 or any(path in failed.lines for path in self.paths):
            return failed.lines
        given = b"".join(os.fsencode(path) + b"\0" for path in self.paths)
        found = []
        for words in (("links", "--links-from", "-"), ("check", "--all", "--explain", "--links-from", "-")):
            done = subprocess.run([self.name, *words], input=given, stdout=subprocess.PIPE, stderr=subprocess.PIPE, check=False)
            lines = (done.stdout + done.stderr).decode("utf-8", "replace").splitlines()
            found += [line for line in lines if PLACE.search(line) or line.startswith(NOTE)]
        return "\n".join([failed.lines.rstrip("\n"), *found])

    def help_of_check(self) -> str:
        """The help of `check`."""
        return self.run("check", "--help", paths=())

    def has_further_runs(self) -> bool:
        """Whether `why` shows the harm of a further fault."""
        return "--fault" in self.run("why", "--help", paths=())

    def verdicts(self) -> list[Verdict]:
        """What `check` says of all areas, in the order of their tags."""
        found: list[list[str]] = []
        for line in self.run("check", "--all", "--more", *self.options).splitlines():
            if line.startswith(("yes ", "no ")):
                found.append([line])
            elif found and not line.startswith("areas "):
                found[-1].append(line)
        return [verdict_of(lines) for lines in found]


def verdict_of(lines: list[str]) -> Verdict:
    """The verdict of the lines of an area."""
    faults, assumed = [], []
    unseen: tuple[Address, ...] = ()
    tag = lines[0].split(" ")[1].replace("\\\\", "\\")
    for line in lines:
        word, *rest = line.split(" ")
        if word in ("no", "also"):
            code, name, *addresses = rest[1:] if word == "no" else rest
            faults.append(Fault(code, name, tuple(address_in(address) for address in addresses)))
        elif word == "assumed":
            assumed.append(address_in(rest[0]))
        elif word == "unseen":
            unseen = tuple(map(address_in, rest))
    return Verdict(tag, tuple(faults), tuple(assumed), unseen, tuple(lines))


class Area:
    """An area: its carriers with their lines, and for each linked pair whether the first lists the second, and back."""

    def __init__(self, verdict: Verdict, files: list[LinkFile]) -> None:
        self.verdict, self.tag = verdict, verdict.tag
        self.carriers: dict[Address, list[tuple[Optional[LinkFile], AreaLine]]] = {}
        for file in files:
            if self.tag in file.areas:
                self.carriers.setdefault(file.system, []).append((file, file.areas[self.tag]))
        for system in verdict.assumed:
            self.assume(system)
        self.links: dict[Pair, tuple[bool, bool]] = {}
        for one, lines in self.carriers.items():
            for other in {link for _, line in lines for link in line.links}:
                pair = min(one, other), max(one, other)
                there, back = self.links.get(pair, (False, False))
                self.links[pair] = (there or one <= other, back or one >= other)
        self.systems = sorted(self.carriers.keys() | {system for pair in self.links for system in pair})

    def seen_links(self) -> dict[Pair, Seen]:
        """The links of which a file says how many messages took them."""
        found: dict[Pair, Seen] = {}
        for one, lines in self.carriers.items():
            for _, line in lines:
                for other, seen in line.seen.items():
                    found[min(one, other), max(one, other)] = seen
        return found

    def assume(self, system: Address) -> None:
        """Adds an assumed system: it lists just those who list it."""
        listing = tuple(sorted(one for one, lines in self.carriers.items() if any(system in line.links for _, line in lines)))
        self.carriers.setdefault(system, []).append((None, AreaLine(0, listing, "")))

    def neighbours(self, systems: Iterable[Address]) -> set[Address]:
        """These systems, and those that are linked with one of them."""
        inner = set(systems)
        return inner | {system for pair in self.links if inner & set(pair) for system in pair}

    def shape(self) -> tuple[object, ...]:
        """What two areas have in common if they look alike."""
        lines = tuple((system, tuple(line.links for _, line in lines)) for system, lines in sorted(self.carriers.items()))
        return lines, self.verdict.faults, self.verdict.assumed
