"""A command of the program, and its help."""
from __future__ import annotations

import textwrap
from typing import NamedTuple

ALL_STATUSES = (
    "0  good",
    "1  something was put aside, or needs a hand",
    "2  an input was refused",
    "3  a device failed, or memory ran out",
    "4  the command line was refused",
)
WITHOUT_HAND = (ALL_STATUSES[0], *ALL_STATUSES[2:])
HELP = ("-h, --help", "Print help")
STATION = ("[STATION]", "The folder of the station; by default the folder in which you are")
ANY = 1 << 20
WIDTH = 100

Pairs = tuple[tuple[str, str], ...]


class Word(NamedTuple):
    """What a command does, and what follows it. `least` and `most` count the words that are no options. The function of
    the command has its name, and takes the station and the words; it is in the module `module`, or in that of its name."""

    name: str
    summary: str
    usage: str = ""
    arguments: Pairs = ()
    options: Pairs = ()  # as `--older <DAYS>` if a value follows
    example: str = ""
    least: int = 0
    most: int = 0
    statuses: tuple[str, ...] = ALL_STATUSES
    module: str = ""
    has_free_words: bool = False  # its words may begin with a hyphen: options come before them
    does_all: bool = False  # a folder of stations does it for each
    must_begin: bool = False  # without a folder it ends as a run that cannot begin, with 3
    makes_station: bool = False  # takes the path of the folder in place of a station
    details: str = ""  # sentences behind the summary, in the help and in the manual page

    def help(self) -> str:
        """The text of --help."""
        lines = [self.summary, ""]
        if self.details:
            lines += [*textwrap.wrap(self.details, WIDTH), ""]
        lines += [("Usage: echonet-station [STATION] %s %s" % (self.name, self.usage)).rstrip()]
        lines += ["", "Arguments:", *rows((STATION, *self.arguments))]
        lines += ["", "Options:", *rows((*(("    " + name, text) for name, text in self.options), HELP))]
        lines += ["", "Example:", "  echonet-station " + self.example]
        lines += ["", "Exit status:", *("  " + line for line in self.statuses)]
        return "\n".join(lines)


def rows(pairs: Pairs) -> list[str]:
    """Names and texts in two columns."""
    width = max(len(name) for name, _ in pairs)
    return ["  %s  %s" % (name.ljust(width), text) for name, text in pairs]
