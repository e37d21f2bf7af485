"""What the tools share: help, options, and the ends of runs."""
import os
import re
import sys
from typing import Iterator, NoReturn

from fidonet import outputs

HELPS = ("-h", "--help")


class Refused(Exception):
    """A word of a command line that cannot be used."""


class Words:
    """The words of a command line in order. An option has its value behind it, or after `=`."""

    def __init__(self, words: list[str]) -> None:
        self.left = list(words)
        self.value: list[str] = []

    def __iter__(self) -> Iterator[str]:
        while self.left:
            yield self.next()

    def next(self) -> str:
        """The next word. The value after `=` is kept for `value_of`."""
        word = self.left.pop(0)
        name, sign, value = word.partition("=")
        self.value = [value] if sign and re.fullmatch("--[a-z-]+", name) else []
        return name if self.value else word

    def value_of(self, option: str) -> str:
        """The value of the option that came."""
        found = self.value or self.left[:1]
        if not self.value:
            del self.left[:1]
        self.value = []
        if not found:
            raise Refused(option)
        return found[0]

    def check_flag(self, option: str) -> None:
        """Refuses a value of an option that takes none."""
        if self.value:
            raise Refused("%s=%s" % (option, self.value[0]))


def name_of_tool() -> str:
    """The name by which the tool was called."""
    return os.path.basename(sys.argv[0])


def tell(line: str) -> None:
    """A line on standard error."""
    print("%s: %s" % (name_of_tool(), line.rstrip("\n").encode("utf-8", "backslashreplace").decode()), file=sys.stderr, flush=True)


def end(status: int, line: str) -> NoReturn:
    """Ends with a line on standard error."""
    tell(line)
    finish(status)


def finish(status: int) -> NoReturn:
    """Ends. A standard output that could not be written is a device that failed."""
    fault = outputs.fault()
    if fault is not None:
        tell("cannot use standard output: %s" % fault.strerror)
        status = 3
    sys.stderr.flush()
    os._exit(status)


def begin(description: str) -> list[str]:
    """The words of the command line. It prints the help that one asks for."""
    outputs.install()
    words = sys.argv[1:]
    if any(word in HELPS for word in words):
        print(description.strip())
        finish(0)
    return words


def usage_of(description: str) -> str:
    """The first line of a description."""
    return description.strip().split("\n", maxsplit=1)[0]
