"""The commands by which people write and read."""
from __future__ import annotations

from .word import WITHOUT_HAND, Word

MAIL = (
    Word(
        "post",
        "Posts a message; its body is standard input",
        "[OPTIONS] <AREA> <TO> <FROM> <SUBJECT> [REPLY]",
        (
            ("<AREA>", "The area"),
            ("<TO>", "The addressee"),
            ("<FROM>", "The sender"),
            ("<SUBJECT>", "The subject"),
            ("[REPLY]", "The id (MSGID) of the message that it answers"),
        ),
        (("--charset <NAME>", "The charset of the body, and of names and subject that are no UTF-8; by default UTF-8"),),
        "two post TEST All Ann Hello < letter",
        4,
        5,
        WITHOUT_HAND,
        has_free_words=True,
        must_begin=True,
        details="With a byte above 7F it gets a CHRS line, and is written in the charset CHARSET of the file settings, else in that of"
        " --charset, unless the body has a CHRS line. While the base has fewer messages than at an earlier scan, nothing is posted:"
        " repair it first.",
    ),
    Word(
        "read",
        "Lets a reader such as GoldED read and write areas",
        "[OPTIONS] <WORDS>...",
        (("<WORDS>...", "A file with a line TAG KIND PATH for each area; or an area, and its folder or JAM base"),),
        (
            ("--jam", "In a JAM base, not in a folder of stored messages"),
            ("--unlocked", "Without the lock of JAM programs: none may run meanwhile"),
            ("--areadef", "Only prints the lines of GoldED for a file of areas"),
        ),
        "two read two/readers",
        1,
        2,
        must_begin=True,
        details="KIND is msg or jam. READING.md has more.",
    ),
)
