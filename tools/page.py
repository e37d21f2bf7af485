"""The page of a net: a table of its areas, and for each area its picture, its faults, and the run that does harm."""
import base64
import concurrent.futures
import datetime
import hashlib
import html
import os
from typing import Optional

import drawing
import nets
import runs
from nets import Address, Pair

CLASSES = {"mail is lost": "lost", "mail may be lost": "maybe", "mail is sent twice": "twice", "the file is wrong": "wrong", "": "good"}
MARKS = {"lost": "\u2716", "maybe": "\u26a0", "twice": "\u26a0", "wrong": "\u270e", "good": "\u2714"}
MOST_WHOLE = 150
MOST_DRAWN = 12000
MOST_PART = 60
MOST_FAULTS = 25
MOST_LOOPS = 8
MOST_WORDS = 14
BATCH = 25


def many(count: int, what: str) -> str:
    """A count of things."""
    return "%d %s%s" % (count, what, "" if count == 1 else "s")


def escape(text: str) -> str:
    """A text as HTML, with hidden characters as numbers."""
    return html.escape(nets.plain(text))


def asset(name: str) -> str:
    """The text of a file beside this one."""
    with open(os.path.join(os.path.dirname(os.path.abspath(__file__)), name), encoding="utf-8") as file:
        return file.read()


def hash_of(text: str) -> str:
    """The hash of a style or script, as a browser compares it."""
    return "'sha256-%s'" % base64.b64encode(hashlib.sha256(text.encode()).digest()).decode()


class Net:
    """All areas of a net, the worst first."""

    def __init__(self, files: list[nets.LinkFile], verdicts: list[nets.Verdict]) -> None:
        self.files = files
        self.areas = [nets.Area(verdict, files) for verdict in verdicts]
        self.areas.sort(key=lambda area: (nets.HARM.index(area.verdict.cost()), area.tag))
        self.names = {file.system: file.name for file in reversed(files) if file.name}
        self.by_system: dict[Address, list[nets.LinkFile]] = {}
        for file in files:
            self.by_system.setdefault(file.system, []).append(file)


def sentence(fault: nets.Fault, area: nets.Area) -> str:
    """A fault in words."""
    one, other = (list(map(nets.shown, fault.addresses)) + ["", ""])[:2]
    if fault.code == "V8":
        pairs = [(a, b) for at, a in enumerate(fault.addresses) for b in fault.addresses[at + 1:] if area.links.get((min(a, b), max(a, b))) != (True, True)]
        apart = " %s and %s of it are not linked." % tuple(map(nets.shown, pairs[0])) if pairs else ""
        return "The links form a loop: %s.%s" % (", ".join(map(nets.shown, fault.addresses)), apart)
    return {
        "V2": "%s has two link files." % one,
        "V3": "%s lists itself." % one,
        "V4": "%s lists %s, and no link file of %s has the area." % (one, other, other),
        "V5": "%s lists %s, and %s does not list %s." % (one, other, other, one),
        "V6": "%s and %s have one net and node, in two zones. SEEN-BY lines cannot tell them apart." % (one, other),
        "V7": "No chain of links leads from %s to %s." % (one, other)}[fault.code]


def some_of(faults: tuple[nets.Fault, ...]) -> list[nets.Fault]:
    """The faults that a section shows: the first one, parts and loops, and as many others as there is room for, in their order."""
    late = [at for at, fault in enumerate(faults) if at == 0 or fault.code in ("V7", "V8")]
    others = [at for at in range(len(faults)) if at not in set(late)]
    return [faults[at] for at in sorted((late + others)[:MOST_FAULTS])]


def shortened(text: str, addresses: tuple[Address, ...]) -> str:
    """A line of a link file as HTML: the addresses are marked, and most others of a long line are left out."""
    words, shown = text.split(), {nets.shown(address) for address in addresses}
    kept, left = [], False
    for at, word in enumerate(words):
        is_one = at > 1 and nets.shown(nets.address_in(word)) in shown
        if at < 2 or is_one or len(words) <= MOST_WORDS:
            kept.append("<mark>%s</mark>" % escape(word) if is_one else escape(word))
            left = False
        elif not left:
            kept.append("\u2026")
            left = True
    return " ".join(kept)


class Section:
    """The part of the page for an area."""

    def __init__(self, net: Net, area: nets.Area, number: int) -> None:
        self.net, self.area, self.mark = net, area, "a%d" % number
        self.number = 0  # of the fault that the run shows: 0 is the first, then come those that `check --more` prints
        self.run: Optional[runs.Run] = None
        self.picture: Optional[drawing.Picture] = None
        self.graph = drawing.Graph([], [])

    def part(self, can_be_whole: bool) -> drawing.Graph:
        """What is drawn: the whole area, or the systems of the faults and of the run with their neighbours."""
        if can_be_whole:
            return drawing.part_of(self.area, self.area.systems)
        wanted = [system for step in self.run.steps for system in (step.system, *sum(step.packets, ()))] if self.run else []
        wanted += [system for fault in some_of(self.area.verdict.faults) for system in fault.addresses]
        inner = list(dict.fromkeys(wanted))[:MOST_PART]
        outer = sorted(self.area.neighbours(inner) - set(inner))
        return drawing.part_of(self.area, inner + outer[:max(0, MOST_PART - len(inner))])

    def lines_of_system(self, system: Address, addresses: tuple[Address, ...]) -> list[str]:
        """The AREA lines of a system, with their files and numbers; without one its files, or that it has none."""
        lines = [self.line(file, line.number, line.text, addresses) for file, line in self.area.carriers.get(system, []) if file]
        if not lines and system in self.area.verdict.assumed:
            lines = ["%s was assumed: it has no file here." % nets.shown(system)]
        if not lines:
            lines = [self.line(file, file.number, file.text, ()) + " has no line for the area"
                     for file in self.net.by_system.get(system, [])]
        return lines or ["%s has no file here." % nets.shown(system)]

    @staticmethod
    def line(file: nets.LinkFile, number: int, text: str, addresses: tuple[Address, ...]) -> str:
        """A line of a file, with its place."""
        return '<span class="place">%s:%d:</span> <code>%s</code>' % (html.escape(file.path), number, shortened(text, addresses))

    def fault(self, fault: nets.Fault) -> str:
        """A fault in words, with the lines that cause it."""
        if fault.code == "V2":
            lines = [self.line(file, file.number, file.text, ()) for file in self.net.by_system.get(fault.addresses[0], [])]
        else:
            lines = [line for system in dict.fromkeys(fault.addresses) for line in self.lines_of_system(system, fault.addresses)]
        cost = nets.COSTS[fault.code]
        return '<li><span class="cost %s">%s %s</span>: %s<ul class="files">%s</ul></li>' % (
            CLASSES[cost], fault.code, cost, escape(sentence(fault, self.area)), "".join("<li>%s</li>" % line for line in lines))

    def unseen(self) -> str:
        """What an assumed system means for the verdict."""
        if self.area.verdict.unseen:
            return ("<p>Nothing was seen behind these systems, which have no file here: %s. So there a loop may still bring mail twice, "
                    "or a way may join parts that are apart here.</p>") % ", ".join(map(nets.shown, self.area.verdict.unseen))
        if self.area.verdict.assumed:
            return "<p>%s has no file here. What it exchanges with others was not seen.</p>" % ", ".join(map(nets.shown, self.area.verdict.assumed))
        return ""

    def faults(self) -> str:
        """All faults."""
        faults = self.area.verdict.faults
        if not faults:
            words = "No fault in what was seen." if self.area.verdict.assumed else "No fault: each message reaches each system once."
            return '<p class="cost good">%s</p>%s' % (words, self.unseen())
        more = "<p>And %d more: <code>echonet check --more %s</code> prints them.</p>" % (
            len(faults) - MOST_FAULTS, escape(self.area.tag)) if len(faults) > MOST_FAULTS else ""
        return '<ul class="faults">%s</ul>%s' % ("".join(map(self.fault, some_of(faults))), more) + self.unseen()

    def labels(self) -> dict[Pair, str]:
        """The numbers of the packets of a run, at the links over which they go."""
        found: dict[Pair, list[str]] = {}
        steps = [step for step in self.run.steps if not step.arrives] if self.run else []
        for number, (one, other) in enumerate(packet for step in steps for packet in step.packets):
            found.setdefault((min(one, other), max(one, other)), []).append(str(number))
        return {pair: ", ".join(numbers) for pair, numbers in found.items()}

    def figure(self) -> str:
        """The picture."""
        if self.picture is None or not self.graph.systems:
            return "<p>The area is too large for a picture here: <code>echonet picture %s</code> draws it.</p>" % escape(self.area.tag)
        count, drawn = len(self.area.systems), len(self.graph.systems)
        words, labels = "%s: %s, %s" % (self.area.tag, many(count, "system"), many(len(self.area.links), "link")), self.labels()
        if drawn < count:
            words += ". The picture has the %d systems around the faults" % drawn
        if labels:
            words += ". Numbers at links are packets"
        svg = self.picture.svg(words, self.net.names, labels)
        return '<figure tabindex="0">%s<figcaption>%s.</figcaption></figure>' % (svg, escape(words))

    def packets(self, step: runs.Step) -> str:
        """The links of the packets of a step, each with its direction."""
        words = []
        for one, other in step.packets:
            pair = min(one, other), max(one, other)
            if self.picture and pair in self.picture.links:
                there, _ = self.area.links[pair]
                words.append(self.picture.link_id(pair) + ("+" if (one < other) == there or one == other else "-"))
        return " ".join(words)

    def step(self, step: runs.Step) -> str:
        """A step of the run."""
        data = ' data-packets="%s" data-arrives="%s"' % (self.packets(step), "yes" if step.arrives else "no")
        if self.picture and step.system in self.picture.numbers:
            data += ' data-acts="%s"' % self.picture.system_id(step.system)
            if step.line.startswith("POST ") or step.words.endswith((" files the message.", " has the message already.")):
                data += ' data-has="%s"' % self.picture.system_id(step.system)
        return "<li%s>%s</li>" % (data, escape(step.words))

    def run_part(self) -> str:
        """The run that does harm, as steps."""
        if self.run is None or not self.run.harm:
            return ""
        lines = "<details open><summary>As <code>echonet why</code> prints it</summary><pre>%s</pre></details>" % escape_lines(self.run.lines)
        if not self.run.steps:
            return "<h3>How it goes wrong</h3><p>%s</p>%s" % (escape(self.run.harm), lines)
        return ('<h3>How it goes wrong</h3><div class="buttons" role="group" aria-label="Steps"><button type="button">Back</button>'
                '<button type="button">Next</button><span role="status"></span></div><ol class="steps">%s</ol><p class="harm">%s</p>%s') % (
            "".join(map(self.step, self.run.steps)), escape(self.run.harm), lines)

    def html(self) -> str:
        """The whole section."""
        kind = ' class="run"' if self.run and self.run.steps else ""
        return '<section id="%s"%s aria-labelledby="%sh"><h2 id="%sh">%s</h2>%s%s%s<details open><summary>As <code>echonet check</code> prints it</summary>%s</details>%s</section>' % (
            self.mark, kind, self.mark, self.mark, escape(self.area.tag), self.faults(), self.figure(), self.run_part(),
            "<pre>%s</pre>" % escape_lines(self.area.verdict.lines[:1 + MOST_FAULTS * 2]), self.seen_links() + self.links())

    def seen_links(self) -> str:
        """How many messages took each link, and the day of the last one, if the files are those of links-seen."""
        seen = self.area.seen_links()
        if not seen:
            return ""
        rows = ["<li>%s and %s: %s, last %s</li>" % (nets.shown(one), nets.shown(other), many(known.messages, "message"), escape(known.last))
                for (one, other), known in sorted(seen.items())]
        return "<details><summary>Links that messages took</summary><ul>%s</ul></details>" % "".join(rows)

    def links(self) -> str:
        """Systems and their links as text, for whom the picture does not help."""
        if len(self.area.systems) > MOST_WHOLE:
            return ""
        rows = []
        for system, lines in sorted(self.area.carriers.items()):
            name = self.net.names.get(system)
            links = " ".join(map(nets.shown, sorted({link for _, line in lines for link in line.links}))) or "nobody"
            rows.append("<li>%s%s lists %s</li>" % (nets.shown(system), " (%s)" % escape(name) if name else "", links))
        return "<details><summary>Systems and links</summary><ul>%s</ul></details>" % "".join(rows)


class LoopSection(Section):
    """The part of the page for a loop behind another fault: its picture, and the run in which it does harm."""

    def __init__(self, net: Net, area: nets.Area, mark: str, number: int) -> None:
        super().__init__(net, area, 0)
        self.mark, self.number, self.fault_here = mark, number, area.verdict.faults[number]

    def part(self, can_be_whole: bool) -> drawing.Graph:
        """What is drawn: the systems of the loop and of the run, with their neighbours."""
        wanted = [system for step in self.run.steps for system in (step.system, *sum(step.packets, ()))] if self.run else []
        inner = list(dict.fromkeys([*self.fault_here.addresses, *wanted]))[:MOST_PART]
        outer = sorted(self.area.neighbours(inner) - set(inner))
        return drawing.part_of(self.area, inner + outer[:max(0, MOST_PART - len(inner))])

    def html(self) -> str:
        """The whole section, behind that of the area."""
        kind = ' class="run"' if self.run and self.run.steps else ""
        return '<section id="%s"%s aria-labelledby="%sh"><h2 id="%sh">%s: another loop</h2><p>%s</p>%s%s</section>' % (
            self.mark, kind, self.mark, self.mark, escape(self.area.tag), escape(sentence(self.fault_here, self.area)), self.figure(), self.run_part())


def loops_of(sections: list[Section]) -> list[LoopSection]:
    """A section for each loop that is not the first fault of its area."""
    found = []
    for section in sections:
        further = [number for number, fault in enumerate(section.area.verdict.faults) if number and fault.code == "V8"]
        found += [LoopSection(section.net, section.area, "%sl%d" % (section.mark, number), number) for number in further[:MOST_LOOPS]]
    return found


def escape_lines(lines: tuple[str, ...]) -> str:
    """Lines as HTML."""
    return "\n".join(map(escape, lines))


def add_runs(sections: list[Section], program: nets.Program) -> None:
    """Runs `why` for each area with a fault. Areas of one shape have one run."""
    shapes: dict[tuple[object, ...], list[Section]] = {}
    for section in sections:
        if section.area.verdict.faults:
            shapes.setdefault((section.number, section.area.shape()), []).append(section)

    def printed(section: Section) -> str:
        assumed = [word for system in section.area.verdict.assumed for word in ("--assume", nets.shown(system))]
        further = ["--fault", str(section.number)] if section.number else []
        return program.run("why", *further, *assumed, section.area.tag)

    with concurrent.futures.ThreadPoolExecutor(os.cpu_count()) as pool:
        for alike, output in zip(shapes.values(), pool.map(printed, [alike[0] for alike in shapes.values()])):
            for section in alike:
                text = output.replace(" %s " % alike[0].area.tag, " %s " % section.area.tag)
                section.run = runs.run_of(section.area, section.net.files, section.net.names, text)


def add_pictures(sections: list[Section]) -> None:
    """Places all pictures. The worst areas come first, and large ones are drawn whole while there is room."""
    left = MOST_DRAWN
    for section in sections:
        count = len(section.area.systems)
        is_whole = count <= MOST_WHOLE or count <= left
        left -= count if is_whole and count > MOST_WHOLE else 0
        section.graph = section.part(is_whole)
    graphs = list({graph_key(section.graph): section.graph for section in sections if section.graph.systems}.values())
    batches = [graphs[at:at + BATCH] for at in range(0, len(graphs), BATCH)]
    with concurrent.futures.ThreadPoolExecutor(os.cpu_count()) as pool:
        places = {graph_key(graph): drawn for batch, found in zip(batches, pool.map(drawing.place_all, batches))
                  for graph, drawn in zip(batch, found)}
    for section in sections:
        if section.graph.systems:
            section.picture = drawing.Picture(section.area, section.graph, places[graph_key(section.graph)], section.mark)


def graph_key(graph: drawing.Graph) -> tuple[object, ...]:
    """What two graphs have in common if they are placed alike."""
    return tuple(graph.systems), tuple(graph.links)


def row(section: Section) -> str:
    """The row of an area in the table."""
    verdict, area = section.area.verdict, section.area
    cost = verdict.cost()
    kind = CLASSES[cost]
    more = ", and %d more" % (len(verdict.faults) - 1) if len(verdict.faults) > 1 else ""
    words = "no: %s%s" % (" ".join([verdict.faults[0].code, verdict.faults[0].name, *map(nets.shown, verdict.faults[0].addresses)]), more) \
        if verdict.faults else "yes"
    cells = (("Systems", str(len(area.carriers)), "number"), ("Links", str(len(area.links)), "number"),
             ("Verdict", '<span aria-hidden="true">%s</span> %s' % (MARKS[kind], escape(words)), kind),
             ("Cost", escape(cost or "nothing"), "cost " + kind))
    return '<tr role="row"><th scope="row" role="rowheader"><a href="#%s">%s</a></th>%s</tr>' % (
        section.mark, escape(area.tag), "".join('<td role="cell" data-label="%s" class="%s">%s</td>' % (label, kind, text) for label, text, kind in cells))


def table(sections: list[Section]) -> str:
    """The table of all areas."""
    heads = "".join('<th scope="col" role="columnheader">%s</th>' % head for head in ("Area", "Systems", "Links", "Verdict", "Cost"))
    return '<table role="table" id="areas"><caption>All areas, the worst first</caption><thead role="rowgroup"><tr role="row">%s</tr></thead><tbody role="rowgroup">%s</tbody></table>' % (
        heads, "\n".join(map(row, sections)))


def summary(net: Net) -> str:
    """How many areas are in order."""
    bad = sum(1 for area in net.areas if area.verdict.faults)
    seen = sum(1 for area in net.areas if area.seen_links())
    only = "" if not seen else (" In %s the link files are those of links-seen: only links that messages took were judged, and a link "
                                "that no message took is not in them.") % many(seen, "area")
    return "%s, %s: %d in order, %d with a fault. Judged by <code>echonet check</code> on %s UTC.%s" % (
        many(len(net.by_system), "system"), many(len(net.areas), "area"), len(net.areas) - bad, bad, datetime.datetime.utcnow().strftime("%Y-%m-%d %H:%M"), only)


def page_of(net: Net, title: str, program: nets.Program, has_runs: bool) -> str:
    """The whole page."""
    sections = [Section(net, area, number) for number, area in enumerate(net.areas)]
    loops = loops_of(sections)
    if has_runs:
        add_runs([*sections, *(loops if program.has_further_runs() else [])], program)
    add_pictures([*sections, *loops])
    style, script = asset("net-page.css"), asset("net-page.js")
    policy = "default-src 'none'; style-src %s; script-src %s; base-uri 'none'; form-action 'none'" % (hash_of(style), hash_of(script))
    arrow = ('<svg width="0" height="0" aria-hidden="true"><defs><marker id="arrow" viewBox="0 0 10 10" refX="9" refY="5" markerWidth="8" '
             'markerHeight="8" orient="auto"><path d="M0 0L10 5L0 10z"/></marker></defs></svg>')
    return "\n".join([
        '<!DOCTYPE html>\n<html lang="en">\n<head>\n<meta charset="utf-8">',
        '<meta http-equiv="Content-Security-Policy" content="%s">' % html.escape(policy),
        '<meta name="viewport" content="width=device-width, initial-scale=1">\n<meta name="color-scheme" content="light dark">',
        "<title>%s</title>\n<style>%s</style>\n</head>\n<body>" % (escape(title), style),
        '<a class="skip" href="#areas">To the areas</a><header><h1>%s</h1><p>%s</p></header>%s<main>' % (escape(title), summary(net), arrow),
        table(sections), *(part.html() for section in sections for part in (section, *(loop for loop in loops if loop.area is section.area))),
        "</main>\n<script>%s</script>\n</body>\n</html>\n" % script])
