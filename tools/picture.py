"""Pictures of jobs: where nodes and edges stand, and the SVG of that. `tools/graph` makes them."""
import html

from job_files import COUNTING

INK = "#24292f"
DIM = "#57606a"
FAINT = "#6e7781"
PLAIN = "#f6f8fa"
LINE = "#8c959f"
COVERED = "#fff1d6"
ASKED = "#ffc266"
WARM = "#bc4c00"


def shortened(text, most=30):
    return text if len(text) <= most else text[: most - 2] + ".."


# ---- places: layers by longest path, with a bend for each layer that an edge crosses


class Layout:
    """Where nodes and the bends of edges stand: a layer each, and a height."""

    def __init__(self, nodes, edges):
        self.layer = longest_paths([node.name for node in nodes], edges)
        self.layers = [[] for _ in range(max(self.layer.values()) + 1)]
        for node in nodes:
            self.layers[self.layer[node.name]].append(node.name)
        self.ways = [self.way(edge) for edge in edges]
        self.links = [link for way in self.ways for link in zip(way, way[1:])]
        self.order()
        self.y = {}
        self.settle()

    def way(self, edge):
        """The places that an edge goes through: its two nodes, and a bend in each layer between."""
        first, last = self.layer[edge.source], self.layer[edge.target]
        bends = [(edge.source, edge.target, layer) for layer in range(first + 1, last)]
        for bend in bends:
            self.layer[bend] = bend[2]
            self.layers[bend[2]].append(bend)
        return [edge.source, *bends, edge.target]

    def beside(self, place, step):
        """The places that links join to this one, on the one side or the other."""
        if step > 0:
            return [source for source, target in self.links if target == place]
        return [target for source, target in self.links if source == place]

    def order(self):
        """Orders each layer by the mean place of what its members are linked to."""
        for turn in range(8):
            step = 1 if turn % 2 == 0 else -1
            for members in self.layers[::step]:
                before = {place: at for layer in self.layers for at, place in enumerate(layer)}

                def mean(place):
                    linked = self.beside(place, step)
                    if not linked:
                        return before[place]
                    return sum(before[other] for other in linked) / len(linked)

                members.sort(key=mean)

    def settle(self):
        """Gives each place a height: near its links, and at least 1 from its neighbours."""
        for members in self.layers:
            for at, place in enumerate(members):
                self.y[place] = at - (len(members) - 1) / 2
        for turn in range(24):
            step = 1 if turn % 2 == 0 else -1
            for members in self.layers[::step]:
                wanted = {}
                for place in members:
                    linked = self.beside(place, step) or self.beside(place, -step)
                    heights = [self.y[other] for other in linked] or [self.y[place]]
                    wanted[place] = sum(heights) / len(heights)
                self.spread(members, wanted)
        least = min(self.y.values())
        self.y = {place: height - least for place, height in self.y.items()}

    def spread(self, members, wanted):
        """Sets the heights of a layer in its order, as near to the wanted ones as gaps allow."""
        blocks = []
        for place in members:
            blocks.append([[place], wanted[place]])
            while len(blocks) > 1:
                (above, high), (below, low) = blocks[-2:]
                if low - high >= (len(above) + len(below)) / 2:
                    break
                size = len(above) + len(below)
                middle = (
                    (high - len(below) / 2) * len(above) + (low + len(above) / 2) * len(below)
                ) / size
                blocks[-2:] = [[above + below, middle]]
        for block, middle in blocks:
            for at, place in enumerate(block):
                self.y[place] = middle + at - (len(block) - 1) / 2


def longest_paths(names, edges):
    """The layer of each node: one more than the greatest of those that lead to it."""
    layer = dict.fromkeys(names, 0)
    for _ in names:
        for edge in edges:
            layer[edge.target] = max(layer[edge.target], layer[edge.source] + 1)
    # A source stands right before what it feeds.
    for name in names:
        targets = [layer[edge.target] for edge in edges if edge.source == name]
        if not any(edge.target == name for edge in edges) and targets:
            layer[name] = min(targets) - 1
    return layer


# ---- the picture

HIGH = 58
ROW = 92
GAP = 54
EDGE = 24


def width_of(node):
    lines = (len(node.name) * 1.15, len(node.second_line()), len(shortened(node.told)) * 0.95)
    longest = max(lines)
    return max(96, int(longest * 6.6) + 34)


def outline(kind, x, y, w, h):
    """The path of a shape about its middle."""
    left, right, top, low = x - w / 2, x + w / 2, y - h / 2, y + h / 2
    if kind == "source":
        r = h / 2
        return (
            f"M{left + r},{top} H{right - r} A{r},{r} 0 0 1 {right - r},{low}"
            f" H{left + r} A{r},{r} 0 0 1 {left + r},{top} Z"
        )
    if kind == "filter":
        return (
            f"M{left + 14},{top} H{right - 14} L{right},{y}"
            f" L{right - 14},{low} H{left + 14} L{left},{y} Z"
        )
    if kind == "enrich":
        return (
            f"M{left},{top} H{right - 12} L{right},{top + 12} V{low} H{left} Z"
            f" M{right - 12},{top} V{top + 12} H{right}"
        )
    if kind in COUNTING:
        r = w / 2
        return (
            f"M{left},{top + 6} A{r},7 0 0 1 {right},{top + 6}"
            f" V{low - 6} A{r},7 0 0 1 {left},{low - 6} Z"
            f" M{left},{top + 6} A{r},7 0 0 0 {right},{top + 6}"
        )
    if kind == "clamp":
        return (
            f"M{left},{top} H{right} V{low} H{left} Z"
            f" M{left + 7},{top} V{low} M{right - 7},{top} V{low}"
        )
    if kind == "split":
        return f"M{left},{top + 7} L{right},{top} V{low} L{left},{low - 7} Z"
    if kind == "replicate":
        return f"M{left},{top} L{right},{top + 7} V{low - 7} L{left},{low} Z"
    if kind == "sink":
        return f"M{left},{top} H{right - 16} L{right},{y} L{right - 16},{low} H{left} Z"
    return f"M{left},{top} H{right} V{low} H{left} Z"


def box(x, y, width, height, fill):
    """A box of the legend."""
    return (
        f'<rect x="{x}" y="{y}" width="{width}" height="{height}" fill="{fill}" stroke="{WARM}"/>'
    )


class Picture:
    """An SVG of a job."""

    def __init__(self, nodes, edges, title, legend):
        self.nodes = {node.name: node for node in nodes}
        self.edges = edges
        self.layout = Layout(nodes, edges)
        self.title = title
        self.legend = legend
        self.columns()

    def columns(self):
        """The middle of each layer, and the size of the whole."""
        self.middle, x = [], EDGE
        for members in self.layout.layers:
            widest = max(width_of(self.nodes[name]) for name in members if name in self.nodes)
            self.middle.append(x + widest / 2)
            x += widest + GAP
        self.width = max(x - GAP + EDGE, 560)
        self.top = 62 if self.title else EDGE
        below = 64 if self.legend else EDGE
        self.height = self.top + max(self.layout.y.values()) * ROW + HIGH + below

    def at(self, place):
        layer = self.layout.layer[place]
        return self.middle[layer], self.top + HIGH / 2 + self.layout.y[place] * ROW

    def svg(self):
        size = f'width="{self.width:.0f}" height="{self.height:.0f}"'
        parts = [
            f'<svg xmlns="http://www.w3.org/2000/svg" {size}'
            f' viewBox="0 0 {self.width:.0f} {self.height:.0f}"'
            ' font-family="Helvetica, Arial, sans-serif">',
            f'<rect {size} rx="10" fill="#ffffff"/>',
        ]
        for name, colour in (("plain", LINE), ("warm", WARM)):
            parts.append(
                f'<marker id="{name}" viewBox="0 0 10 10" refX="9" refY="5"'
                ' markerWidth="9" markerHeight="9" markerUnits="userSpaceOnUse" orient="auto">'
                f'<path d="M0,0 L10,5 L0,10 L2.5,5 Z" fill="{colour}"/></marker>'
            )
        if self.title:
            parts.append(self.text(EDGE, 34, self.title, 15, INK, "start", "bold"))
        ways = zip(self.edges, self.layout.ways)
        for edge, way in sorted(ways, key=lambda pair: pair[0].covered):
            parts.append(self.edge(edge, way))
        parts += [self.node(node) for node in self.nodes.values()]
        if self.legend:
            parts += self.legend_parts()
        return "\n".join(parts + ["</svg>"])

    def edge(self, edge, way):
        points = [self.at(place) for place in way]
        first, last = self.nodes[way[0]], self.nodes[way[-1]]
        x, y = points[0][0] + width_of(first) / 2, points[0][1]
        start, first_end, path = (x, y), None, f"M{x:.1f},{y:.1f}"
        for place, (px, py) in zip(way[1:], points[1:]):
            end = px
            if place == way[-1]:
                end -= width_of(last) / 2 + (6 if last.head else 0)
            bend = (end - x) / 2
            path += f" C{x + bend:.1f},{y:.1f} {end - bend:.1f},{py:.1f} {end:.1f},{py:.1f}"
            x, y = end, py
            first_end = first_end or (x, y)
        width, arrow = (2.6, "warm") if edge.covered else (1.5, "plain")
        parts = [
            f'<path d="{path}" fill="none" stroke="{edge.colour()}"'
            f' stroke-width="{width}" marker-end="url(#{arrow})"/>'
        ]
        if edge.port:
            x, y = (start[0] + first_end[0]) / 2, (start[1] + first_end[1]) / 2 + 3.5
            halo = ' stroke="#ffffff" stroke-width="4" paint-order="stroke"'
            parts.append(self.text(x, y, f"port {edge.port}", 10, FAINT, "middle", more=halo))
        return "".join(parts)

    def node(self, node):
        (x, y), w = self.at(node.name), width_of(node)
        style = f'stroke="{node.border()}" stroke-width="1.5" stroke-linejoin="round"'
        parts = []
        if node.head:
            high = HIGH + (23 if node.kind in COUNTING else 11)
            around = outline(node.kind, x, y, w + 11, high).split(" M")[0]
            parts.append(f'<path d="{around}" fill="#ffffff" {style}/>')
        high = HIGH + 12 if node.kind in COUNTING else HIGH
        around = outline(node.kind, x, y, w, high)
        parts.append(f'<path d="{around}" fill="{node.fill()}" {style}/>')
        rows = [(node.name, 13, INK, "bold"), (node.second_line(), 10.5, DIM, "normal")]
        if node.told:
            rows.append((shortened(node.told), 10.5, INK, "normal"))
        y += (-3 if len(rows) == 2 else -10) + (5 if node.kind in COUNTING else 0)
        for text, size, colour, weight in rows:
            parts.append(self.text(x, y, text, size, colour, "middle", weight))
            y += 15
        return "".join(parts)

    def text(self, x, y, text, size, colour, anchor, weight="normal", more=""):
        return (
            f'<text x="{x:.1f}" y="{y:.1f}" font-size="{size}" fill="{colour}"'
            f' text-anchor="{anchor}" font-weight="{weight}"{more}>{html.escape(text)}</text>'
        )

    def legend_parts(self):
        x, y = EDGE, self.height - 26
        parts = []
        for text, fill, head in (
            ("changed by the request", ASKED, False),
            ("covered with it", COVERED, False),
            ("head: gets the control message", "#ffffff", True),
        ):
            if head:
                parts.append(box(x - 3, y - 12, 22, 18, "none"))
            parts.append(box(x, y - 9, 16, 12, fill))
            parts.append(self.text(x + 24, y + 1, text, 10.5, FAINT, "start"))
            x += 24 + len(text) * 5.6 + 22
        parts.append(
            f'<path d="M{x},{y - 3} h22" stroke="{WARM}" stroke-width="2.6"'
            ' marker-end="url(#warm)"/>'
        )
        parts.append(self.text(x + 30, y + 1, "markers", 10.5, FAINT, "start"))
        return parts
