"""The commands that move mail."""
from __future__ import annotations

from .word import Word

RUNS = (
    Word(
        "run",
        "Tosses, and then scans, also if the toss failed",
        example="two run",
        does_all=True,
        must_begin=True,
        details="The mailer and cron run this.",
    ),
    Word(
        "toss",
        "Tosses what the mailer received",
        example="two toss",
        does_all=True,
        must_begin=True,
        details="With a file peers it calls gate first. Faulty packets, and those with messages that are not filed, go to bad/, with"
        " the reason in NAME.why.",
    ),
    Word(
        "scan",
        "Makes packets of what waits, and hands them to the mailer",
        example="two scan",
        does_all=True,
        must_begin=True,
        details="It answers lists of links. With a file peers it calls letters and dress.",
    ),
    Word(
        "gate",
        "Takes received files in: opens bundles, checks passwords, files letters",
        example="two gate",
        details="It takes packets and bundles (*.mo? to *.su?) from the inbound folder, repairs packets, and takes passwords off. What"
        " it refuses goes to bad/, letters go to netmail/, all echomail to tossing/.",
    ),
    Word(
        "dress",
        "Writes passwords and points into the packets of a scan",
        example="two dress",
        details="It also writes the fields of type 2+, and takes points out of the SEEN-BY lines for others.",
    ),
    Word(
        "letters",
        "Packs the letters that were written here",
        example="two letters",
        details="These are the letters of netmail/ that are Local or InTransit and not Sent, and become Sent. A letter goes to the"
        " point or the peer that it is for, else to the system of the line ROUTE.",
    ),
    Word(
        "answer",
        "Answers lists of ids that links sent for a repair",
        example="two answer",
        details="A link is sent what its list lacks, and the own list.",
    ),
)
