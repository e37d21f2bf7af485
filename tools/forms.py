"""Configurations of other tossers, and the areas that they name."""
import os
import re
from typing import Callable, Iterable, Iterator, Optional

FULL = re.compile(r"\d+:\d+/\d+(\.\d+)?(@\S+)?")
READ_ONLY, WRITE_ONLY = "!", "@"
ONE_WAY = {READ_ONLY: "read-only", WRITE_ONLY: "write-only"}
SIGNS = {"-r": READ_ONLY, "-w": WRITE_ONLY}
LOCAL = "local areas, which have no links"
FALSE = ("", "0", "no", "off", "false")


class Area:
    """An area of a configuration: its tag, its own address or None, its base, and the words for its links."""

    def __init__(self, tag: str, own: Optional[str] = None, kind: str = "", path: str = "", links: Iterable[str] = ()) -> None:
        self.tag, self.own, self.kind, self.path, self.links = tag.upper(), own, kind.lower(), path, list(links)


class Neighbour:
    """A link of a configuration: the word of its address, and the passwords of all and of its packets."""

    def __init__(self, address: str = "", password: str = "", packet_password: str = "") -> None:
        self.address, self.password, self.packet_password = address, password, packet_password


class Left:
    """What is left out: each kind with a count and its first example."""

    def __init__(self) -> None:
        self.kinds: dict[str, list[str]] = {}

    def out(self, kind: str, example: str) -> None:
        """Counts something that is left out; the same thing once."""
        examples = self.kinds.setdefault(kind, [])
        if example not in examples:
            examples.append(example)

    def lines(self) -> list[str]:
        """A line for each kind."""
        return ["%s: %d, first %s" % (kind, len(examples), examples[0]) for kind, examples in self.kinds.items()]


class Reader:
    """Reads files line by line, with the files that they include."""

    def __init__(self, left: Left) -> None:
        self.left, self.opened = left, set[str]()
        self.neighbours: list[Neighbour] = []

    @staticmethod
    def read(path: str) -> list[str]:
        """The lines of a file, up to its first byte 1A."""
        with open(path, encoding="ascii", errors="surrogateescape") as file:
            return file.read().split("\x1a")[0].split("\n")

    def near(self, path: str, word: str) -> str:
        """The path of a file that another one names: from its folder, else from here."""
        if os.sep not in word:
            word = word.replace("\\", os.sep)
        beside = os.path.join(os.path.dirname(path), word)
        return beside if os.path.exists(beside) else word

    def named(self, path: str, word: str) -> list[str]:
        """The lines of a file that another one names. Each is read once."""
        found = self.near(path, word)
        if os.path.realpath(found) in self.opened:
            self.left.out("files included again", ascii(word))
            return []
        self.opened.add(os.path.realpath(found))
        try:
            return self.read(found)
        except OSError:
            self.left.out("included files that cannot be read", ascii(word))
            return []

    def whole(self, path: str, lines: Optional[list[str]] = None) -> Iterator[tuple[str, str]]:
        """Each line with the path of its file. The lines of an included file replace its `include` line."""
        if lines is None:
            self.opened.add(os.path.realpath(path))
            lines = self.read(path)
        for line in lines:
            words = words_of(line)
            if words and words[0].lower() == "include" and len(words) > 1:
                yield from self.whole(self.near(path, words[1]), self.named(path, words[1]))
            else:
                yield path, line


def words_of(line: str) -> list[str]:
    """The words of a line; blanks may be between double quotes."""
    return [quoted or bare for quoted, bare in re.findall(r'"([^"]*)"?|(\S+)', line)]


def areas_bbs(reader: Reader, paths: list[str]) -> Iterator[Area]:
    """PATH TAG LINK..: a mark in front of the path gives the kind of the base. The first line may be a title."""
    for path in paths:
        yield from areas_in(reader.read(path), reader.left)


def areas_in(lines: list[str], left: Left) -> Iterator[Area]:
    """The areas of the lines of an AREAS.BBS."""
    kinds = {"!": "jam", "$": "squish", "#": "none"}
    lines = [line for line in lines if line.strip() and line.lstrip()[0] not in ";-"]
    for line in lines[1:] if lines and " ! " in lines[0] else lines:
        words = line.split()
        if len(words) < 2:
            left.out("lines that are not understood", ascii(line))
            continue
        kind = kinds.get(words[0][0], "none" if words[0].isdigit() else "msg")
        yield Area(words[1], None, kind, words[0].lstrip("!$#"), words[2:])


def crashmail(reader: Reader, paths: list[str]) -> Iterator[Area]:
    """AREA TAG ADDRESS KIND PATH, and its EXPORT lines."""
    area, areas = Area(""), []
    for line in (line for path in paths for line in reader.read(path)):
        word, *words = words_of(line) or [""]
        if word.upper() == "NODE" and words:
            reader.neighbours.append(Neighbour(words[0], "", (words + ["", ""])[2]))
        elif word.upper() in ("AREA", "NETMAIL", "LOCALAREA"):
            area = Area(*words[:4]) if words else Area("")
            areas += [area] * (word.upper() == "AREA")
            if word.upper() == "LOCALAREA" and words:
                reader.left.out(LOCAL, ascii(area.tag))
        elif word.upper() == "EXPORT":
            area.links += words
        elif word.upper() == "UNCONFIRMED" and area in areas:
            areas.remove(area)
            reader.left.out("areas that are unconfirmed", ascii(area.tag))
    return iter(areas)


class Hpt:
    """The state of a configuration of hpt: its own address, defaults of areas, and variables."""

    def __init__(self, reader: Reader) -> None:
        self.left, self.neighbours = reader.left, reader.neighbours
        self.own: Optional[str] = None
        self.defaults: list[str] = []
        self.variables: dict[str, str] = {}

    def expanded(self, line: str) -> str:
        """A line without its comment, and with the values of its variables."""
        line = re.sub(r"(^|\s)#(\s.*)?$", "", line)
        return re.sub(r"\[(\w+)\]", lambda found: self.variables.get(found[1].lower(), os.environ.get(found[1], found[0])), line)

    def take(self, words: list[str]) -> Optional[Area]:
        """Takes a line, and returns its area."""
        word = words[0].lower()
        if word == "address" and self.own is None and len(words) > 1:
            self.own = words[1]
        elif word == "set":
            name, _, value = " ".join(words[1:]).partition("=")
            self.variables[name.strip().lower()] = value.strip().strip('"')
        elif word in ("if", "ifdef", "ifndef", "elif", "elseif", "else"):
            self.left.out("conditions that are not judged", ascii(" ".join(words)))
        elif word == "localarea" and len(words) > 1:
            self.left.out(LOCAL, ascii(words[1].upper()))
        elif word in ("link", "aka", "password", "pktpwd"):
            self.take_neighbour(word, (words + [""])[1])
        elif word == "echoareadefaults":
            self.defaults = [] if words[1:2] == ["off"] else words[1:]
        elif word == "echoarea" and len(words) > 2:
            return self.area(words[1], words[2], self.defaults + words[3:])
        return None

    def take_neighbour(self, word: str, value: str) -> None:
        """Takes a line on a link. A line Link begins one."""
        if word == "link":
            self.neighbours.append(Neighbour())
        elif self.neighbours and word == "aka":
            self.neighbours[-1].address = value
        elif self.neighbours and word == "password":
            self.neighbours[-1].password = value
        elif self.neighbours:
            self.neighbours[-1].packet_password = value

    def area(self, tag: str, path: str, words: list[str]) -> Area:
        """The area of a line, with its options and links."""
        area = Area(tag, self.own, "msg", path)
        options = iter(words)
        for option in options:
            if option.lower() == "-a":
                area.own = next(options, None)
            elif option.lower() == "-b":
                area.kind = next(options, "").lower()
            elif option.lower() == "-d":
                next(options, None)
            elif FULL.fullmatch(option) or re.match(r"[0-9*]+:[0-9*]+/", option):
                area.links.append(option)
            elif option.lower() in SIGNS and area.links:
                area.links[-1] = SIGNS[option.lower()] + area.links[-1]
        if area.path.lower() == "passthrough":
            area.kind = "none"
        return area


def hpt(reader: Reader, paths: list[str]) -> Iterator[Area]:
    """EchoArea TAG PATH, options and links. The words of EchoAreaDefaults come in front of those of a line."""
    state = Hpt(reader)
    for path in paths:
        yield from hpt_file(reader, state, path, reader.read(path))


def hpt_file(reader: Reader, state: Hpt, path: str, lines: list[str]) -> Iterator[Area]:
    """The areas of a file of hpt and of those that it includes, whose names may have variables."""
    reader.opened.add(os.path.realpath(path))
    for line in lines:
        words = words_of(state.expanded(line))
        if words and words[0].lower() == "include" and len(words) > 1:
            yield from hpt_file(reader, state, reader.near(path, words[1]), reader.named(path, words[1]))
        elif words:
            area = state.take(words)
            if area:
                yield area


def squish(reader: Reader, paths: list[str]) -> Iterator[Area]:
    """EchoArea TAG PATH, flags and links; AreasBBS FILE. The first Address is that of areas without the flag -p."""
    own: Optional[str] = None
    for path, line in (found for path in paths for found in reader.whole(path)):
        words = [] if line.lstrip().startswith(";") else line.split(";")[0].split()
        word = words[0].lower() if words else ""
        if word == "address" and own is None and len(words) > 1:
            own = words[1]
        elif word == "password" and len(words) > 2:
            reader.neighbours.append(Neighbour(words[1], "", words[2]))
        elif word == "areasbbs" and len(words) > 1:
            for area in areas_in(reader.named(path, words[1]), reader.left):
                area.own = own
                yield area
        elif word == "echoarea" and len(words) > 2:
            yield squish_area(words, own, reader.left)


def squish_area(words: list[str], own: Optional[str], left: Left) -> Area:
    """The area of an EchoArea line of Squish."""
    area = Area(words[1], own, "msg", words[2])
    for word in words[3:]:
        if word.startswith("-$"):
            area.kind = "squish"
        elif word == "-0":
            area.kind = "none"
        elif word.startswith("-p"):
            area.own = word[2:]
        elif word.startswith("-x"):
            left.out("links in one way there, in both ways here", "%s of %s, excluded" % (word[2:], area.tag))
        elif not word.startswith("-"):
            area.links.append(word)
    return area


def sbbsecho(reader: Reader, paths: list[str]) -> Iterator[Area]:
    """sbbsecho.ini: its AreaFile has lines CODE TAG LINK... A section `node:ADDRESS` may have a LocalAddress."""
    for path in paths:
        section, own_of, lists = "", dict[str, str](), list[str]()
        for line in reader.read(path):
            head = re.fullmatch(r"\s*\[(.*)\]\s*", line)
            name, _, value = (part.strip() for part in line.partition("="))
            if head:
                section = head[1].strip().lower()
            elif line.lstrip().startswith(";"):
                continue
            elif name.lower() == "areafile" and not section and value:
                lists.append(value)
            elif section.startswith("node:"):
                node = section[5:].partition("@")[0]
                if name.lower() == "localaddress" and value:
                    own_of[node] = value
                if name.lower() == "packetpwd" and value:
                    reader.neighbours.append(Neighbour(node, "", value))
                if name.lower() in ("passive", "paused") and value.lower() not in FALSE:
                    reader.left.out("links that are passive there, and links here", node)
        if not lists:
            reader.left.out("files without an AreaFile", ascii(path))
        for word in lists:
            yield from sbbsecho_areas(reader.named(path, word), own_of, reader.left)


def sbbsecho_areas(lines: list[str], own_of: dict[str, str], left: Left) -> Iterator[Area]:
    """The areas of an AREAS.BBS of SBBSecho. Its own address is the LocalAddress of the links, if they have one."""
    for line in lines:
        words = [] if line.lstrip().startswith(";") else line.split(";")[0].split()
        if len(words) == 1:
            left.out("lines that are not understood", ascii(line))
        if len(words) < 2:
            continue
        links = [word.rstrip(",") for word in words[2:]]
        owns = list(dict.fromkeys(own_of[link] for link in links if link in own_of))
        if len(owns) > 1:
            left.out("areas with several own addresses, in the first one here", ascii(words[1]))
        yield Area(words[1], owns[0] if owns else None, "none" if words[0].upper() == "P" else "smb", words[0], links)


FORMS: dict[str, Callable[[Reader, list[str]], Iterator[Area]]] = {
    "areas.bbs": areas_bbs, "crashmail": crashmail, "hpt": hpt, "squish": squish, "sbbsecho": sbbsecho}
