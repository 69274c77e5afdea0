"""The picture of a run: strips with marks over a time. `tools/timeline` makes it."""
import html

from audits import NEW, OLD
from picture import DIM, FAINT, INK, LINE, PLAIN, WARM, shortened

WIDTH = 900
EDGE = 24
RIGHT = 28
TOP = 84
STRIP = 52
# The part of a strip over which its rows are spread.
SPREAD = 26
FOOT = 92
# What a mark of each side looks like: its fill and its border.
COLOURS = {0: (PLAIN, LINE), OLD: ("#b6d7f2", "#1f6fb2"), NEW: ("#ffc266", WARM)}
# The least size of a mark that has its number inside.
NUMBERED = 6.2


class Mark:
    """A row that a worker meets: when, its side, and whether it was fed on the other side."""

    def __init__(self, row, time, side, late):
        self.row = row
        self.time = time
        self.side = side
        self.late = late


class Strip:
    """A worker, or the feeder: its marks, and the times of requests with their numbers."""

    def __init__(self, name, kind, marks, bars):
        self.name = name
        self.kind = kind
        self.marks = marks
        self.bars = bars


class Chart:
    """An SVG of strips."""

    def __init__(self, title, strips, rows, request, ordered):
        self.title = title
        self.strips = strips
        self.rows = rows
        self.request = request
        self.ordered = ordered
        self.place()

    def place(self):
        """Finds the range of times, and the sizes that follow from it."""
        # Where the strips begin: right of the longest name and of the numbers of rows.
        names = max(len(text) for strip in self.strips for text in (strip.name, strip.kind))
        self.left = EDGE + 7.2 * names + 5.2 * len(str(self.rows[1])) + 18
        times = [mark.time for strip in self.strips for mark in strip.marks]
        # Without all rows, the time is that of the rows that are drawn.
        self.first = min(times, default=1)
        self.last = max(times, default=1)
        shown = [time for strip in self.strips for _, time in strip.bars]
        if self.first == 1 or not times:
            self.first = min([self.first, *shown])
            self.last = max([self.last, *shown])
        span = max(self.last - self.first, 1)
        self.step = (WIDTH - self.left - RIGHT - 24) / span
        self.size = max(1.1, min(8.5, self.step * 0.46))
        self.height = TOP + STRIP * len(self.strips) + FOOT

    def x(self, time):
        return self.left + 12 + (time - self.first) * self.step

    def y(self, top, row):
        """The height of a row in a strip: later rows stand higher."""
        span = max(self.rows[1] - self.rows[0], 1)
        return top + STRIP / 2 + SPREAD / 2 - (row - self.rows[0]) * SPREAD / span

    def svg(self):
        size = f'width="{WIDTH}" height="{self.height}"'
        parts = [
            f'<svg xmlns="http://www.w3.org/2000/svg" {size} viewBox="0 0 {WIDTH} {self.height}"'
            ' font-family="Helvetica, Arial, sans-serif">',
            f"<title>{html.escape(self.title)}</title>",
            f'<rect {size} rx="10" fill="#ffffff"/>',
            text(EDGE, 34, shortened(self.title, 96), 15, INK, weight="bold"),
            text(EDGE, 54, self.subtitle(), 11, DIM),
        ]
        parts += self.guide()
        for at, strip in enumerate(self.strips):
            parts += self.strip(strip, TOP + at * STRIP)
        return "\n".join(parts + self.axis() + self.legend() + ["</svg>"]) + "\n"

    def subtitle(self):
        first, last = self.rows
        if self.request is None:
            return f"Rows {first} to {last}."
        fed = self.strips[0].marks
        late = sum(mark.late and mark.side == NEW for mark in fed)
        counts = [sum(mark.side == side for mark in fed) for side in (OLD, NEW, 0)]
        told = f"Rows {first} to {last}: {counts[0]} old, {counts[1]} new, {counts[2]} neither."
        return f"{told} The request overtook {late}."

    def guide(self):
        """A line through all strips where the request is issued."""
        bars = [time for number, time in self.strips[0].bars if number == self.request]
        for time in bars:
            if self.first <= time <= self.last:
                x, low = self.x(time), TOP + STRIP * len(self.strips)
                yield (
                    f'<path d="M{x:.1f},{TOP} V{low}" stroke="{WARM}" stroke-width="1"'
                    ' stroke-dasharray="2 4" fill="none"/>'
                )

    # ---- a strip

    def strip(self, strip, top):
        middle = top + STRIP / 2
        parts = [
            f'<path d="M{EDGE},{top} H{WIDTH - RIGHT + 4}" stroke="#d0d7de" stroke-width="1"/>',
            text(EDGE, middle - (2 if strip.kind else -4), strip.name, 12, INK, weight="bold"),
        ]
        if strip.kind:
            parts.append(text(EDGE, middle + 12, strip.kind, 10, DIM))
        if self.rows[1] > self.rows[0]:
            for row in self.rows:
                parts.append(text(self.left - 4, self.y(top, row) + 3, row, 8.5, FAINT, "end"))
        # Where marks lie on each other, the later side is above.
        parts += self.marks(strip.marks, top)
        parts += [part for bar in strip.bars for part in self.bar(top, *bar)]
        return parts

    def bar(self, top, number, time):
        if not self.first <= time <= self.last:
            return
        chosen = number == self.request
        colour, width = (WARM, 3) if chosen else (LINE, 2)
        x = self.x(time)
        low = top + STRIP - 4
        yield f'<path d="M{x:.1f},{top + 4} V{low}" stroke="{colour}" stroke-width="{width}"/>'
        yield (
            f'<circle cx="{x:.1f}" cy="{top + 7}" r="6.5" fill="#ffffff" stroke="{colour}"'
            ' stroke-width="1.5"/>'
        )
        yield text(x, top + 10, number, 8.5, colour, "middle", "bold")

    def marks(self, marks, top):
        seen = set()
        for mark in marks:
            x, y = self.x(mark.time), self.y(top, mark.row)
            # Marks that would cover each other are drawn once.
            spot = (round(x * 2), round(y * 2), mark.side, mark.late)
            if spot not in seen:
                seen.add(spot)
                yield self.mark(mark, x, y)

    def mark(self, mark, x, y):
        part = shape(mark.side, mark.late, x, y, self.size)
        if self.size >= NUMBERED and mark.row < 1000:
            part += text(x, y + 2.9, mark.row, 8, INK, "middle")
        return part

    # ---- the frame

    def axis(self):
        low = TOP + STRIP * len(self.strips)
        told = "time: each step stands right of those that it followed"
        if not self.ordered:
            told += ", as far as the audit tells without the job"
        return [
            f'<path d="M{self.left:.1f},{TOP} V{low} H{WIDTH - RIGHT + 4}" stroke="{FAINT}" fill="none"/>',
            f'<path d="M{WIDTH - RIGHT + 4},{low - 4} l8,4 l-8,4 Z" fill="{FAINT}"/>',
            text((self.left + WIDTH - RIGHT) / 2, low + 18, told, 10.5, DIM, "middle"),
            text(self.left - 4, TOP - 8, "row", 10.5, DIM, "end"),
            text(EDGE, TOP - 8, "worker", 10.5, DIM),
        ]

    def legend(self):
        if self.request is None:
            return []
        marks = {(mark.side, mark.late) for strip in self.strips for mark in strip.marks}
        told = [
            ((OLD, False), "old row"),
            ((NEW, False), "new row"),
            ((NEW, True), "new, and fed before the issue"),
            ((OLD, True), "old, and fed after the issue"),
            ((0, False), "neither"),
        ]
        parts, x, y = [], 32, self.height - 30
        for kind, words in told:
            if kind in marks:
                parts += [shape(*kind, x, y, 7), text(x + 13, y + 4, words, 10.5, DIM)]
                x += 13 + len(words) * 5.3 + 22
        words = f"turn of request {self.request}; in the feeder's strip its issue"
        parts.append(f'<path d="M{x:.1f},{y - 8} v16" stroke="{WARM}" stroke-width="3"/>')
        parts.append(text(x + 8, y + 4, words, 10.5, DIM))
        return parts


def shape(side, late, x, y, size):
    """A square for a new row, and else a circle; its border is bold if `late`."""
    fill, border = COLOURS[side]
    width = min(1.2, size / 2) if not late else max(1.2, size / 3)
    style = f'fill="{fill}" stroke="{INK if late else border}" stroke-width="{width:.1f}"'
    if side == NEW:
        half = size * 0.9
        return (
            f'<rect x="{x - half:.1f}" y="{y - half:.1f}" width="{2 * half:.1f}"'
            f' height="{2 * half:.1f}" rx="{size / 5:.1f}" {style}/>'
        )
    return f'<circle cx="{x:.1f}" cy="{y:.1f}" r="{size:.1f}" {style}/>'


def text(x, y, words, size, colour, anchor="start", weight="normal"):
    return (
        f'<text x="{x:.1f}" y="{y:.1f}" font-size="{size}" fill="{colour}"'
        f' text-anchor="{anchor}" font-weight="{weight}">{html.escape(str(words))}</text>'
    )
