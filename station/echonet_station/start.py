"""Reads the command line, and starts the work of a command."""
from __future__ import annotations

import os
import sys
from importlib import import_module
from os.path import isdir
from typing import Optional

from fidonet import outputs

from .faults import Status, Stopped
from .printing import shown_path
from .running import whole_status_of
from .signals import take_signals
from .word import Word
from .words import BY_NAME, general_help

HELPS = ("-h", "--help")
HERE = "."


class Line:
    """A command line: the station, the command, and the words after it."""

    def __init__(self, words: list[str]) -> None:
        self.is_here = self.begins_with_command(words)
        self.station = HERE if self.is_here else words[0]
        rest = words if self.is_here else words[1:]
        self.name, self.words = rest[0] if rest else "", rest[1:]
        self.word: Optional[Word] = BY_NAME.get(self.name)

    @staticmethod
    def begins_with_command(words: list[str]) -> bool:
        """Whether the station was left out. A station may have the name of a command, if a command follows."""
        is_command = words[0] in BY_NAME or words[0] == "help"
        return is_command and not (len(words) > 1 and words[1] in BY_NAME and isdir(words[0]))

    def asks_help(self) -> bool:
        """Whether a word asks for help."""
        if self.word is None:
            return self.name in ("help", *HELPS)
        return any(word in HELPS for word in (self.words[:1] if self.word.has_free_words else self.words))

    def help(self) -> str:
        """The help that it asks for."""
        if self.word is not None:
            return self.word.help()
        named = [BY_NAME[word] for word in self.words if word in BY_NAME]
        return named[0].help() if named else general_help()


def is_folder_of_stations(folder: str) -> bool:
    """Whether a folder has stations. A station itself has a link file."""
    from .several import folders_in

    return isdir(folder) and bool(folders_in(folder))


def work(line: Line, word: Word) -> int:
    """Does the work of a command. Only its own modules are imported."""
    if not os.path.lexists(os.path.join(line.station, "links")) and is_folder_of_stations(line.station):
        from .several import folders_in, run_each

        if not word.does_all or {"--json", "--page"} & {item.split("=")[0] for item in line.words}:
            raise Stopped(Status.COMMAND, "%s is a folder of stations: give one" % shown_path(line.station))
        return run_each(line.station, folders_in(line.station), lambda folder: work_at(folder, word, line.words))
    if line.is_here and not os.path.lexists("links"):
        raise Stopped(Status.COMMAND, "no station here: give its folder")
    return work_at(line.station, word, line.words)


def work_at(folder: str, word: Word, words: list[str]) -> int:
    """Does the work of a command for one station."""
    if word.must_begin and not isdir(folder):
        raise Stopped(Status.FAILED, "no folder %s" % shown_path(folder))
    function = getattr(import_module("." + (word.module or word.name), __package__), word.name)
    if word.makes_station:
        return int(function(folder, words))
    from .station import Station

    try:
        station = Station(folder)
    except Stopped as fault:
        if word.must_begin and fault.status == Status.REFUSED:
            raise Stopped(Status.FAILED, str(fault)) from fault
        raise
    return int(function(station, words))


def count_fits(word: Word, words: list[str]) -> bool:
    """Whether a command line has as many words as the command takes."""
    from .options import given_by

    return word.least <= len(given_by(word, words).words) <= word.most


def run(words: list[str]) -> int:
    """Runs a command line."""
    if not words:
        print(general_help(), file=sys.stderr)
        return Status.COMMAND
    if words[0] == "--version":
        from .calls import program

        os.execvp(program(), [program(), "--version"])
    if words[0] in HELPS:
        words = ["help", *words[1:]]
    line = Line(words)
    if line.asks_help():
        print(line.help())
        return Status.GOOD
    if line.word is None:
        raise Stopped(Status.COMMAND, "no command %s" % line.name if line.name else "no command")
    if not count_fits(line.word, line.words):
        print(line.word.help(), file=sys.stderr)
        return Status.COMMAND
    return work(line, line.word)


def main(words: list[str]) -> int:
    """Runs a command line, and returns its status."""
    outputs.install()
    take_signals()
    return whole_status_of(lambda: run(words))
