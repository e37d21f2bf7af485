#!/usr/bin/env python3
"""manual_pages.py FOLDER: writes the manual pages that repeat a program's help into this folder, so that each text stands
once. That of echonet-station is docs/echonet-station.1, with its commands. Those of three tools are their descriptions."""
from __future__ import annotations

import ast
import os
import sys

sys.dont_write_bytecode = True
TOP = os.path.dirname(os.path.dirname(os.path.abspath(__file__)))
sys.path.insert(0, os.path.join(TOP, "station"))
from echonet_station.word import ALL_STATUSES, Word  # noqa: E402
from echonet_station.words import WORDS  # noqa: E402

COMMANDS = '.\\" scripts/manual_pages.py puts the commands here, and the statuses.\n'
TOOLS = {
    "links-from": "a link file from the configuration of another tosser",
    "links-seen": "link files from the PATH lines of echomail",
    "net-page": "a page that shows a net and its faults",
}


def roff(text: str) -> str:
    """A text as lines of a manual page."""
    lines = text.replace("\\", "\\e").replace("-", "\\-").split("\n")
    return "\n".join("\\&" + line if line[:1] in ("'", ".") else line for line in lines)


def heading(word: Word) -> str:
    """The heading of a command: its options in place of the word that stands for them, and no angles."""
    options = "".join("[%s] " % name for name, _ in word.options)
    usage = word.usage.replace("[OPTIONS] ", options).replace("[OPTIONS]", options.strip())
    return ("%s %s" % (word.name, usage.replace("<", "").replace(">", ""))).rstrip()


def command(word: Word) -> str:
    """The part of a command."""
    lines = [".SS " + roff(heading(word)), roff(word.summary) + ".", *([roff(word.details)] if word.details else [])]
    for name, text in word.arguments:
        lines += [".TP", ".I " + roff(name.replace("<", "").replace(">", "")), roff(text) + "."]
    for name, text in word.options:
        option, _, value = name.partition(" ")
        named = '.BI "%s " %s' % (roff(option), value.strip("<>")) if value else ".B " + roff(option)
        lines += [".TP", named, roff(text) + "."]
    return "\n".join(lines) + "\n"


def statuses() -> str:
    """The part of the exit statuses."""
    pairs = (line.split("  ", 1) for line in ALL_STATUSES)
    return ".SH EXIT STATUS\n" + "".join(".TP\n.B %s\n%s\n" % (number, roff(text)) for number, text in pairs)


def station_page() -> str:
    """The page of echonet-station."""
    with open(os.path.join(TOP, "docs", "echonet-station.1"), encoding="utf-8") as file:
        frame = file.read()
    before, after = frame.split(COMMANDS)
    return before + "".join(command(word) for word in WORDS) + statuses() + after


def title(name: str) -> str:
    """The first line of a page: that of echonet's with another name."""
    with open(os.path.join(TOP, "docs", "echonet.1"), encoding="utf-8") as file:
        return file.readline().replace("ECHONET", name.upper().replace("-", "\\-"))


def tool_page(name: str) -> str:
    """The page of a tool, from the description at its beginning."""
    with open(os.path.join(TOP, "tools", name), encoding="utf-8") as file:
        usage, *parts = str(ast.get_docstring(ast.parse(file.read()))).split("\n\n")
    page = title(name) + ".SH NAME\n%s \\- %s\n.SH SYNOPSIS\n%s\n.SH DESCRIPTION\n" % (roff(name), TOOLS[name], roff(usage))
    page += "\n.PP\n".join(roff(part) for part in parts if not part.startswith("Exit status: "))
    status = [part[len("Exit status: "):] for part in parts if part.startswith("Exit status: ")]
    others = ",\n".join(".BR %s (1)" % roff(other) for other in ("echonet", *TOOLS) if other != name)
    return page + "\n.SH EXIT STATUS\n%s\n.SH SEE ALSO\n%s\n" % (roff(status[0]), others)


def main() -> None:
    """Writes the pages."""
    pages = {"echonet-station": station_page(), **{name: tool_page(name) for name in TOOLS}}
    for name, text in pages.items():
        path = os.path.join(sys.argv[1], name + ".1")
        with open(path, "w", encoding="utf-8") as file:
            file.write(text)
        os.chmod(path, 0o644)


main()
