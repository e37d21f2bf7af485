"""The commands about links: which there are, what they get, and whether mail would go round."""
from __future__ import annotations

from .word import ANY, Word

ADDRESS = ("<ADDRESS>", "The address of the link")
TAGS = ("<TAG>...", "The areas")
FORCE = ("--force", "Also if mail would go round")

AREAS = Word(
    "areas",
    "Prints the areas of the station, with links, messages and descriptions",
    example="two areas",
    details="These are the areas of the link file and of the file areas; one that the link file lacks has no area in place of counts.",
)
LINK = Word(
    "link",
    "Adds a link: its passwords, its mailer, its areas; and prints a mail to its sysop",
    "[OPTIONS] <ADDRESS> [TAG]...",
    (ADDRESS, ("[TAG]...", "The areas that it gets")),
    (
        ("--host <HOST>", "Where its mailer is: HOST or HOST:PORT"),
        ("--password <WORD>", "The password of sessions; its first 8 bytes are that of packets"),
        ("--plus", "It gets packets of type 2+"),
        ("--areafix <WORD>", "The password of its letters to AreaFix, 6 to 35 bytes"),
        ("--groups <LETTERS>", "The groups of areas that it may ask for"),
        FORCE,
    ),
    "two link 2:5020/200 --password secret42 RU.TEST",
    1,
    ANY,
    module="linking",
    details="It gets a line in peers, a node line in the station's binkd.conf (printed, without that file or a host), and areas as by"
    " subscribe. What is there is kept; a line that says otherwise is refused.",
)
SUBSCRIBE = Word(
    "subscribe",
    "Gives a link areas, unless mail would go round",
    "[OPTIONS] <ADDRESS> <TAG>...",
    (ADDRESS, TAGS),
    (
        ("--rescan <N>", "The next scan sends it the last messages of each, so many, also of one that it has"),
        ("--read-only", "Writes a line READONLY first: what it sends of them is put aside"),
        FORCE,
    ),
    "two subscribe 2:5020/200 RU.TEST --rescan 20",
    2,
    ANY,
    module="subscriptions",
    details="Each area is judged first, with the link files of the folder net.",
)
UNSUBSCRIBE = Word(
    "unsubscribe",
    "Takes areas of a link away",
    "[OPTIONS] <ADDRESS> [TAG]...",
    (ADDRESS, ("[TAG]...", "The areas")),
    (("--all", "All that it has"),),
    "two unsubscribe 2:5020/200 RU.TEST",
    1,
    ANY,
    module="subscriptions",
)
UNLINK = Word(
    "unlink",
    "Removes a link: its areas, its lines in peers and binkd.conf",
    "<ADDRESS>",
    (ADDRESS,),
    example="two unlink 2:5020/200",
    least=1,
    most=1,
    module="linking",
    details="It says how many packets still wait for it.",
)
PAUSE = Word(
    "pause",
    "Sends a link nothing until it is resumed",
    "<ADDRESS>",
    (ADDRESS,),
    example="two pause 2:5020/200",
    least=1,
    most=1,
    module="pausing",
    details="It takes all areas of the link away, and notes how far it has got.",
)
RESUME = Word(
    "resume",
    "Gives a paused link its areas again, and sends what came meanwhile",
    "[OPTIONS] <ADDRESS>",
    (ADDRESS,),
    (FORCE,),
    "two resume 2:5020/200",
    1,
    1,
    module="pausing",
)
NET = Word(
    "net",
    "Writes the links that mail took as link files of the folder net/, by links-seen",
    example="two net",
    module="seen_links",
    details="The files seen.ZONE.NET.NODE have the links of the last 60 days, for systems without a file there. Commands that judge links"
    " do this themselves.",
)

LINKS = (AREAS, LINK, SUBSCRIBE, UNSUBSCRIBE, UNLINK, PAUSE, RESUME, NET)
