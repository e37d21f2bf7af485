"""Draws areas as SVG. Graphviz places the systems; the marks are those of `echonet picture`."""
import html
import subprocess
from typing import Iterable, NamedTuple

import nets
from nets import Address, Pair

POINTS = 72.0
HEIGHT = 0.34
MOST_OF_CIRCO = 12
MOST_OF_NEATO = 60

Point = tuple[float, float]


class Graph(NamedTuple):
    """What is drawn: some systems of an area, and the links between them."""
    systems: list[Address]
    links: list[Pair]

    def text(self) -> str:
        """The graph in DOT, without any text of a link file."""
        number = {system: at for at, system in enumerate(self.systems)}
        engine = "circo" if len(self.systems) <= MOST_OF_CIRCO else "neato" if len(self.systems) <= MOST_OF_NEATO else "sfdp"
        lines = ["graph {", "layout=%s; overlap=prism; sep=\"+12\"; mindist=0.7; edge [len=1.3]; node [shape=box, fixedsize=true, label=\"\", height=%.2f];"
                 % (engine, HEIGHT)]
        lines += ["n%d [width=%.2f];" % (number[system], width_of(system)) for system in self.systems]
        lines += ["n%d -- n%d;" % (number[one], number[other]) for one, other in self.links]
        return "\n".join(lines + ["}", ""])


class Drawn(NamedTuple):
    """Where Graphviz places a graph: its size, the middle of each system, and the points of the curve of each link."""
    width: float
    height: float
    middles: list[Point]
    curves: list[list[Point]]


def width_of(system: Address) -> float:
    """The width of a box for an address, in inches."""
    return 0.2 + 0.115 * len(nets.shown(system))


def place_all(graphs: list[Graph]) -> list[Drawn]:
    """Places graphs by one run of Graphviz."""
    text = "".join(graph.text() for graph in graphs).encode()
    try:
        done = subprocess.run(["dot", "-Tplain"], input=text, stdout=subprocess.PIPE, stderr=subprocess.DEVNULL, check=False)
    except FileNotFoundError as error:
        raise nets.Failed(3, "cannot use dot: install Graphviz (apt-get install graphviz)\n") from error
    parts = done.stdout.decode().split("\nstop\n")
    if done.returncode or len(parts) != len(graphs) + 1:
        raise nets.Failed(3, "cannot use dot\n")
    return [drawn_of(part.strip().split("\n"), graph) for part, graph in zip(parts, graphs)]


def drawn_of(lines: list[str], graph: Graph) -> Drawn:
    """The places in the lines of Graphviz, with the first row at the top."""
    _, _, width, height = lines[0].split()[:4]
    high = float(height) * POINTS
    middles: list[Point] = [(0.0, 0.0)] * len(graph.systems)
    curves: dict[tuple[str, str], list[Point]] = {}
    for line in lines[1:]:
        words = line.split()
        if words[0] == "node":
            middles[int(words[1][1:])] = float(words[2]) * POINTS, high - float(words[3]) * POINTS
        elif words[0] == "edge":
            numbers = [float(word) * POINTS for word in words[4:4 + 2 * int(words[3])]]
            curves[words[1], words[2]] = [(x, high - y) for x, y in zip(numbers[::2], numbers[1::2])]
    number = {system: "n%d" % at for at, system in enumerate(graph.systems)}
    return Drawn(float(width) * POINTS, high, middles, [curves[number[one], number[other]] for one, other in graph.links])


def classes_of(area: nets.Area) -> tuple[dict[Address, str], dict[Pair, str]]:
    """The classes of systems and links by the faults of an area: bad, loop, half (one lists the other), and outside."""
    systems: dict[Address, set[str]] = {system: set() for system in area.systems}
    links: dict[Pair, set[str]] = {pair: set() for pair in area.links}
    for system in area.systems:
        if system not in area.carriers:
            systems[system].add("outside")
        elif system in area.verdict.assumed:
            systems[system].add("assumed")
    for fault in area.verdict.faults:
        if fault.code in ("V2", "V3", "V6", "V7", "V8"):
            for system in fault.addresses:
                systems.setdefault(system, set()).add("loop" if fault.code == "V8" else "bad")
        if fault.code == "V8":
            for one, other in zip(fault.addresses, fault.addresses[1:] + fault.addresses[:1]):
                links.setdefault((min(one, other), max(one, other)), set()).add("loop")
    for pair, (there, back) in area.links.items():
        if there != back:
            links[pair].add("half")
    return ({system: " ".join(sorted(found)) for system, found in systems.items()},
            {pair: " ".join(sorted(found)) for pair, found in links.items()})


def path_data(points: list[Point], is_back: bool = False) -> str:
    """The data of an SVG path along a curve of Graphviz."""
    ordered = points[::-1] if is_back else points
    words = ["%.0f %.0f" % point for point in ordered]
    return "M" + words[0] + "C" + " ".join(words[1:])


def middle_of(points: list[Point]) -> Point:
    """A point in the middle of a curve, as its middle piece has it."""
    at = (len(points) - 1) // 3 // 2 * 3
    a, b, c, d = points[at:at + 4]
    return (a[0] + 3 * b[0] + 3 * c[0] + d[0]) / 8, (a[1] + 3 * b[1] + 3 * c[1] + d[1]) / 8


class Picture:
    """The SVG of a part of an area. Its parts have ids that begin with `mark`."""

    def __init__(self, area: nets.Area, graph: Graph, drawn: Drawn, mark: str) -> None:
        self.area, self.graph, self.drawn, self.mark = area, graph, drawn, mark
        self.numbers = {system: at for at, system in enumerate(graph.systems)}
        self.links = {pair: at for at, pair in enumerate(graph.links)}
        self.system_classes, self.link_classes = classes_of(area)

    def system_id(self, system: Address) -> str:
        """The id of a system."""
        return "%sn%d" % (self.mark, self.numbers[system])

    def link_id(self, pair: Pair) -> str:
        """The id of a link."""
        return "%se%d" % (self.mark, self.links[pair])

    def svg(self, title: str, names: dict[Address, str], labels: dict[Pair, str]) -> str:
        """The whole picture. Labels stand at the middle of links."""
        width, height = self.drawn.width + 12, self.drawn.height + 12
        lines = ['<svg role="img" aria-labelledby="%st" viewBox="-6 -6 %.0f %.0f" width="%.0f" height="%.0f"><title id="%st">%s</title>' % (
            self.mark, width, height, width, height, self.mark, html.escape(title))]
        lines += [self.link(pair, points) for pair, points in zip(self.graph.links, self.drawn.curves)]
        lines += [self.system(system, names.get(system, "")) for system in self.graph.systems]
        lines += [self.label(pair, text) for pair, text in labels.items() if pair in self.links]
        return "\n".join(lines + ["</svg>"])

    def link(self, pair: Pair, points: list[Point]) -> str:
        """A line between two systems, with an arrow if only one of them lists the other."""
        there, back = self.area.links[pair]
        kind = self.link_classes[pair]
        arrow = ' marker-end="url(#arrow)"' if there != back else ""
        return '<path id="%s" class="%s" d="%s"%s/>' % (self.link_id(pair), kind or "link", path_data(points, not there), arrow)

    def system(self, system: Address, name: str) -> str:
        """A box with an address; the name appears under the pointer."""
        x, y = self.drawn.middles[self.numbers[system]]
        width, height = width_of(system) * POINTS, HEIGHT * POINTS
        kind = self.system_classes.get(system, "")
        title = "<title>%s</title>" % html.escape("%s %s" % (nets.shown(system), name)) if name else ""
        return '<g id="%s" class="%s">%s<rect x="%.0f" y="%.0f" width="%.0f" height="%.0f" rx="6"/><text x="%.0f" y="%.0f">%s</text></g>' % (
            self.system_id(system), kind or "system", title, x - width / 2, y - height / 2, width, height, x, y + 5, nets.shown(system))

    def label(self, pair: Pair, text: str) -> str:
        """A word at a link."""
        x, y = middle_of(self.drawn.curves[self.links[pair]])
        return '<text class="label" x="%.0f" y="%.0f">%s</text>' % (x, y + 5, html.escape(text))


def part_of(area: nets.Area, systems: Iterable[Address]) -> Graph:
    """The graph of some systems of an area."""
    inner = set(systems)
    return Graph([system for system in area.systems if system in inner],
                 [pair for pair in sorted(area.links) if inner >= set(pair)])
