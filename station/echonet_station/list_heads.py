"""The messages of an area as `echonet list` prints them: their ids and names."""
from __future__ import annotations

import re
from dataclasses import dataclass

ID = re.compile(r"line \\x01MSGID: *(.*)")


@dataclass(frozen=True)
class Head:
    """An id of a message, whether it was posted here, and its names, all as they are printed."""

    area: str
    is_own: bool
    id: str
    names: tuple[str, str, str]  # addressee, author, subject


def printed(text: bytes) -> str:
    """Bytes as the program prints them."""
    return "".join("\\\\" if byte == 92 else chr(byte) if 32 <= byte < 127 else "\\x%02x" % byte for byte in text)


def heads_in(output: str) -> list[Head]:
    """The ids in the lines of a list."""
    found, area, is_own, names = [], "", False, ["", "", ""]
    for line in output.split("\n"):
        if line.startswith("message "):
            words = line.split(" ")
            area, is_own = words[3], words[4] == "posted"
        for place, start in enumerate(("to ", "from ", "subject ")):
            if line.startswith(start):
                names[place] = line[len(start) :]
        id_line = ID.fullmatch(line)
        if id_line:
            found.append(Head(area, is_own, id_line[1], (names[0], names[1], names[2])))
    return found
