"""The command that writes a letter."""
from __future__ import annotations

from .word import WITHOUT_HAND, Word

LETTER = Word(
    "letter",
    "Writes a letter (netmail), which the next scan sends; its body is standard input",
    "[OPTIONS] <ADDRESS> <NAME> <FROM> <SUBJECT>",
    (
        ("<ADDRESS>", "The system of the addressee"),
        ("<NAME>", "The addressee"),
        ("<FROM>", "The sender"),
        ("<SUBJECT>", "The subject"),
    ),
    (("--charset <NAME>", "The charset of what is typed; by default UTF-8"),),
    "two letter 2:5020/1 AreaFix 'My Name' secret < wishes",
    4,
    4,
    WITHOUT_HAND,
    has_free_words=True,
    details="It makes a file of netmail/. The next scan sends it, however soon. The charset is as for post.",
)
