"""The commands of the program. Each group is in a module of its own."""
from __future__ import annotations

from .word import ALL_STATUSES, HELP, STATION, Word, rows
from .words_hand import BY_HAND
from .words_letters import LETTER
from .words_links import LINKS
from .words_mail import MAIL
from .words_run import RUNS

WORDS: tuple[Word, ...] = (*RUNS, *MAIL, LETTER, *LINKS, *BY_HAND)
BY_NAME = {word.name: word for word in WORDS}


def general_help() -> str:
    """The text of --help without a command."""
    commands = tuple((word.name, word.summary) for word in WORDS)
    return "\n".join(
        (
            "Runs a FidoNet station: tosses what the mailer received, scans what waits, and helps its sysop",
            "",
            "Usage: echonet-station [STATION] <COMMAND> ...",
            "",
            "Arguments:",
            *rows((STATION,)),
            "",
            "Commands:",
            *rows(commands),
            "",
            "Options:",
            *rows((HELP, ("    --version", "Print the version of echonet"))),
            "",
            "Help on a command: echonet-station <COMMAND> --help",
            "",
            "Exit status:",
            *("  " + line for line in ALL_STATUSES),
        )
    )
