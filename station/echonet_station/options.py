"""The options of a command line: `--name`, `--name VALUE` or `--name=VALUE`."""
from __future__ import annotations

from .faults import Status, Stopped
from .printing import shown_path
from .word import Word


NOTHING = "\0"  # no word of a command line is this


class Given:
    """What a command line gives: options with their values, a flag with none, and the other words."""

    def __init__(self) -> None:
        self.options: dict[str, list[str]] = {}
        self.words: list[str] = []

    def has(self, name: str) -> bool:
        """Whether an option was given."""
        return name in self.options

    def all(self, name: str) -> list[str]:
        """The values of an option that may come again."""
        return self.options.get(name, [])

    def one(self, name: str) -> str:
        """The value of an option, or nothing. Given twice it is refused."""
        values = self.all(name)
        if len(values) > 1:
            raise Stopped(Status.COMMAND, "%s comes twice" % name)
        return values[0] if values else ""


def refused(word: Word, what: str) -> Stopped:
    """The fault of a command line."""
    return Stopped(Status.COMMAND, "%s: %s" % (word.name, what))


def given_by(word: Word, words: list[str]) -> Given:
    """Sorts the words after a command. `--` ends the options; if the words of a command may begin with a hyphen, so does
    the first word that is none."""
    takes_value = {name.split(" ")[0]: " " in name for name, _ in word.options}
    given, rest = Given(), iter(words)
    for item in rest:
        name, sign, value = item.partition("=")
        if item == "--":
            given.words += rest
        elif name not in takes_value and (word.has_free_words or not item.startswith("--")):
            given.words.append(item)
            given.words += rest if word.has_free_words else ()
        elif name not in takes_value or (sign and not takes_value[name]):
            raise refused(word, "no option %s" % shown_path(item))
        else:
            values = given.options.setdefault(name, [])
            if takes_value[name]:
                if not sign:
                    value = next(rest, NOTHING)
                if value == NOTHING:
                    raise refused(word, "%s needs a value" % name)
                values.append(value)
    return given
