"""How a station is, as an object for JSON, and as a page without script or network."""
from __future__ import annotations

import os
import time
from html import escape

from fidonet.addresses import Address, address_of

from .arrivals import arrivals_in
from .disk import Disk
from .known_loops import DAYS
from .log_sums import LinkSums, LogSums, sums_of_days
from .printing import shown_age
from .station import Station

Facts = dict[str, list[dict[str, object]]]
Sums = dict[int, LogSums]
PLURALS = {"area": "areas", "link": "links", "new": "new"}
ALONE = ("station", "toss", "scan", "bad", "letters", "repair", "disk")
BARS = (DAYS, 30)  # days: those of loops, too
WIDTH = 90  # pixels of the longest bar
STYLE = (
    "body{font:15px/1.4 system-ui,sans-serif;margin:1.5em auto;max-width:70em;padding:0 1em;color:#222;background:#fff}"
    "table{border-collapse:collapse;width:100%;margin:.5em 0 1.5em}th,td{padding:.15em .6em;text-align:left;border-bottom:1px solid #ddd}"
    "td.n{text-align:right;font-variant-numeric:tabular-nums}i{display:inline-block;height:.6em;background:#47a;margin-right:.4em}"
    "li{color:#a20}@media(prefers-color-scheme:dark){body{color:#ddd;background:#161616}th,td{border-color:#444}li{color:#f86}}"
)
HEAD = (
    '<!doctype html>\n<html lang="en"><head><meta charset="utf-8"><meta name="viewport" content="width=device-width">'
    "<meta http-equiv=\"Content-Security-Policy\" content=\"default-src 'none'; style-src 'unsafe-inline'\">"
    "<title>%s</title><style>%s</style></head><body>\n"
)


def as_object(facts: Facts, hands: list[str]) -> dict[str, object]:
    """What `status` prints, by the first words of its lines. What comes once is an object, the others are lists."""
    found: dict[str, object] = {PLURALS.get(name, name): values[0] if name in ALONE else values for name, values in facts.items()}
    for name in ("areas", "links"):
        found.setdefault(name, [])
    return {**found, "hand": hands}


def cell(text: object, is_number: bool = False) -> str:
    """A cell of a table. What it says may be a stranger's."""
    return "<td%s>%s</td>" % (" class=n" if is_number else "", escape(str(text)))


def bar(count: int, greatest: int) -> str:
    """A cell with a bar, and the number that it shows."""
    width = (count * WIDTH + greatest - 1) // greatest if greatest else 0
    return "<td><i style=width:%dpx></i>%d</td>" % (width, count)


def table(title: str, heads: list[str], rows: list[str]) -> str:
    """A table with its title."""
    head = "".join("<th>%s</th>" % escape(it) for it in heads)
    lines = "".join("<tr>%s</tr>\n" % row for row in rows)
    return "<h2>%s</h2>\n<table><tr>%s</tr>\n%s</table>\n" % (escape(title), head, lines)


class Page:
    """The page of a station."""

    def __init__(self, station: Station, facts: Facts, hands: list[str], sums: Sums) -> None:
        self.station, self.facts, self.hands, self.sums = station, facts, hands, sums
        self.arrived = {days: it.filed for days, it in zip(BARS, arrivals_in(station, *BARS))}

    def link_rows(self) -> list[str]:
        """A row for each link."""
        waiting = {it["address"]: it["packets"] for it in self.facts.get("link", [])}
        none = LinkSums()
        found = {name: {days: self.sums[days].links.get(name, none) for days in BARS} for name in self.addresses()}
        greatest = max([0, *(max(it[days].came, it[days].sent) for it in found.values() for days in BARS)])
        rows = []
        for name, sums in found.items():
            last = sums[max(BARS)]
            cells = [cell(name), cell(last.last_came[:16].replace("T", " ")), cell(last.last_sent[:16].replace("T", " "))]
            cells += [cell(waiting.get(name, 0), True), *(bar(sums[days].came, greatest) for days in BARS)]
            rows.append("".join([*cells, *(bar(sums[days].sent, greatest) for days in BARS)]))
        return rows

    def addresses(self) -> list[str]:
        """The links of the link file, and those in the log."""
        found = {self.station.peers.net_address(link) for link in self.station.links()}
        named = (address_of(name, may_be_point=True) for name in self.sums[max(BARS)].links)
        both: set[Address] = found | {address for address in named if address}
        return [str(address) for address in sorted(both)]

    def area_rows(self) -> list[str]:
        """A row for each area."""
        base = {str(it["tag"]): it for it in self.facts.get("area", [])}
        greatest = max([0, *self.arrived[max(BARS)].values()])
        rows = []
        for tag in sorted({*base, *self.station.areas}):
            counts = base.get(tag, {})
            cells = [cell(tag), cell(len(self.station.areas.get(tag, ())), True)]
            cells += [cell(counts.get(name, 0), True) for name in ("messages", "waiting")]
            rows.append("".join([*cells, *(bar(self.arrived[days][tag], greatest) for days in BARS)]))
        return rows

    def text(self) -> str:
        """The whole page."""
        own, disk = str(self.station.real), self.facts["disk"][0]["free"]
        lines = [HEAD % (escape("Station %s" % own), STYLE), "<h1>Station %s</h1>\n" % escape(own)]
        now = time.strftime("%Y-%m-%d %H:%M", time.gmtime())
        runs = ", ".join("%s %s" % (name, self.ago(name)) for name in ("toss", "scan"))
        lines.append("<p>%s UTC. Last %s. %d MB free.</p>\n" % (now, runs, int(str(disk)) >> 20))
        if self.hands:
            lines.append("<h2>Needs a hand</h2>\n<ul>%s</ul>\n" % "".join("<li>%s</li>\n" % escape(hand) for hand in self.hands))
        heads = ["Link", "Last came", "Last sent", "Waiting"]
        heads += ["%s, %d days" % (what, days) for what in ("Came", "Sent") for days in BARS]
        lines.append(table("Links", heads, self.link_rows()))
        lines.append(table("Areas", ["Area", "Links", "Messages", "Wait", *("Came, %d days" % days for days in BARS)], self.area_rows()))
        return "".join([*lines, "</body></html>\n"])

    def ago(self, name: str) -> str:
        """When a run was."""
        seconds = self.facts[name][0]["seconds"]
        return "never" if seconds is None else "%s ago" % shown_age(float(str(seconds)))


def sums_of_page(station: Station) -> Sums:
    """What the log says, by days."""
    return sums_of_days(station, *sorted(BARS, reverse=True))


def write_page(page: Page, path: str) -> None:
    """Writes the page whole."""
    disk = Disk()
    disk.write(path + ".new", page.text().encode("utf-8", "replace"))
    disk.rename(path + ".new", path)
    disk.sync(os.path.dirname(os.path.abspath(path)))
