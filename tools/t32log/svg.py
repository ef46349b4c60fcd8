"""Draws a picture of a log as SVG."""
from html import escape

from .picture import STYLES, Picture, Row

ROW = 20
TOP = 46  # the header above the first row
TEXT = 310  # the width of the words beside the lanes
LEGEND_ROW = 20

STYLE = """
text{font:12px sans-serif;fill:#111}
.place{font:11px monospace;fill:#444;text-anchor:end}
.cluster{font-weight:bold;text-anchor:middle}
.pid{font-size:11px;text-anchor:middle}
.pale{fill:#555}
.lane{fill:#f3f3f3;stroke:#999}
.gone{fill:none;stroke:#bbb;stroke-dasharray:2 4}
.runs{stroke:#111;stroke-width:2.5;fill:none}
.backup{stroke:#555;stroke-width:1.5;stroke-dasharray:1.5 4;fill:none}
.waits{stroke:#111;stroke-width:1.5;stroke-dasharray:6 5;fill:none}
.rolls{stroke:#111;stroke-width:6;fill:none}
.rolled{stroke:#fff;stroke-width:3;fill:none}
.again{fill:#cfcfcf}
.line{stroke:#aaa;stroke-width:1}
.stroke{stroke:#111;stroke-width:1.5;fill:none}
.full{fill:#111;stroke:#111}
.open{fill:#fff;stroke:#111;stroke-width:1.5}
.dashed{stroke:#111;stroke-width:1.5;fill:none;stroke-dasharray:5 3}
.dotted{stroke:#888;stroke-width:1;stroke-dasharray:1 3;fill:none}
.break{stroke:#a00000;stroke-width:3;fill:none}
.lost{fill:#a00000;font-weight:bold}
.italic{font-style:italic}
"""

# A sample of each mark, and its words.
LEGEND = (
    ("runs", "a process runs"), ("backup", "its inactive backup, named in ( )"),
    ("again", "what is done again after the loss"), ("waits", "the backup waits for its pages"), ("rolls", "it rolls forward"),
    ("withheld", "it withholds letters or births"), ("sync", "a synchronisation, and where it is noted"),
    ("page", "a page, and where it is kept"), ("birth", "a fork"), ("exit", "a process ends"),
    ("letter", "a letter, from sender to receiver"), ("eof", "the sender shuts its end"), ("signal", "a signal"),
    ("nowhere", "it arrives nowhere"), ("terminal", "bytes to a terminal"), ("saved", "the receiver's backup saves it"),
    ("counted", "the sender's backup counts it"), ("lost", "a cluster is lost"), ("move", "the loss moves a process"),
    ("fetch", "a page is asked for"), ("pageis", "a page is served"), ("backup_given", "a new backup"),
)


def arrow_head(x: float, y: float, sign: int) -> str:
    return f'<path class="full" d="M{x:g} {y:g}l{-7 * sign} -4v8z"/>'


def open_head(x: float, y: float, sign: int) -> str:
    return f'<path class="stroke" d="M{x - 7 * sign:g} {y - 4:g}L{x:g} {y:g}L{x - 7 * sign:g} {y + 4:g}"/>'


def bar_head(x: float, y: float, sign: int) -> str:
    return f'<path class="stroke" d="M{x - 2 * sign:g} {y - 5:g}v10M{x - 6 * sign:g} {y - 5:g}v10"/>'


def square(x: float, y: float, half: float, style: str) -> str:
    return f'<rect class="{style}" x="{x - half:g}" y="{y - half:g}" width="{2 * half:g}" height="{2 * half:g}"/>'


def diamond(x: float, y: float, half: float, style: str) -> str:
    return f'<path class="{style}" d="M{x:g} {y - half:g}l{half:g} {half:g}l{-half:g} {half:g}l{-half:g} {-half:g}z"/>'


def dot(x: float, y: float, style: str) -> str:
    return f'<circle class="{style}" cx="{x:g}" cy="{y:g}" r="4"/>'


def between(x: float, to: float, y: float, head, style: str = "stroke") -> str:
    """A line with a head, from one column to another; it stops short of the middle of both."""
    sign = 1 if to > x else -1
    return f'<path class="{style}" d="M{x + 3 * sign:g} {y:g}H{to - 5 * sign:g}"/>' + head(to - 3 * sign, y, sign)


def zigzag(x: float, width: float, y: float) -> str:
    steps = int(width // 8)
    return f'<path class="break" d="M{x:g} {y:g}' + "".join(f"l{width / steps:.2f} {-6 if i % 2 else 6}" for i in range(steps)) + '"/>'


def loop(x: float, y: float) -> str:
    return f'<path class="stroke" d="M{x + 3:g} {y - 4:g}c16 -2 16 10 2 8"/>' + open_head(x + 3, y + 4, -1)


def nowhere(x: float, y: float) -> str:
    return f'<path class="stroke" d="M{x + 3:g} {y:g}h10M{x + 12:g} {y - 4:g}l8 8m0 -8l-8 8"/>'


def withheld(x: float, y: float) -> str:
    return dot(x, y, "open") + f'<path class="stroke" d="M{x - 4:g} {y + 4:g}l8 -8"/>'


def birth(x: float, to: float, y: float) -> str:
    return f'<path class="stroke" d="M{x:g} {y:g}H{to:g}"/><path class="full" d="M{to - 5:g} {y - 3:g}h10l-5 8z"/>'


def moved(x: float, to: float, y: float) -> str:
    """Over the row, so that it leaves the zigzag of the loss readable."""
    sign = 1 if to > x else -1
    end = to - 3 * sign
    curve = f"M{x:g} {y:g}C{x + 10 * sign:g} {y + 16:g} {to - 16 * sign:g} {y + 12:g} {end:g} {y + 7:g}"
    return f'<path class="dashed" d="{curve}"/>' + open_head(end, y + 7, sign)


DRAWN = {
    "line": lambda x, y: f'<path class="line" d="M{x[0]:g} {y:g}H{x[1]:g}"/>',
    "letter": lambda x, y: between(x[0], x[1], y, arrow_head),
    "eof": lambda x, y: between(x[0], x[1], y, bar_head),
    "signal": lambda x, y: between(x[0], x[1], y, open_head),
    "loop": lambda x, y: loop(x[0], y),
    "nowhere": lambda x, y: nowhere(x[0], y),
    "saved": lambda x, y: dot(x[0], y, "full"),
    "counted": lambda x, y: dot(x[0], y, "open"),
    "terminal": lambda x, y: f'<path class="dotted" d="M{x[0]:g} {y:g}H{x[1]:g}"/>' + square(x[0], y, 3, "full"),
    "page": lambda x, y: square(x[0], y, 5, "open"),
    "kept": lambda x, y: square(x[0], y, 3.5, "open"),
    "sync": lambda x, y: diamond(x[0], y, 7, "full"),
    "take": lambda x, y: diamond(x[0], y, 7, "full") + f'<circle cx="{x[0]:g}" cy="{y:g}" r="2.5" fill="#fff"/>',
    "synced": lambda x, y: diamond(x[0], y, 5, "open"),
    "birth": lambda x, y: birth(x[0], x[1], y),
    "exit": lambda x, y: f'<path class="runs" d="M{x[0] - 9:g} {y:g}h18"/>',
    "fetch": lambda x, y: between(x[0], x[1], y, open_head, "dashed"),
    "pageis": lambda x, y: square(x[0], y, 4, "open") + between(x[0], x[1], y, arrow_head, "dashed"),
    "move": lambda x, y: moved(x[0], x[1], y),
    "withheld": lambda x, y: withheld(x[0], y),
    "backup_given": lambda x, y: between(x[0], x[1], y, open_head, "dotted") + dot(x[1], y, "open"),
}


def stretch(x: float, y: float, to: float, style: str) -> str:
    if style == "again":
        return f'<rect class="again" x="{x - 7:g}" y="{y:g}" width="14" height="{to - y:g}"/>'
    line = f'<path class="{style}" d="M{x:g} {y:g}V{to:g}"/>'
    return line + f'<path class="rolled" d="M{x:g} {y:g}V{to:g}"/>' if style == "rolls" else line


def svg_head(width: int, height: int) -> str:
    size = f'viewBox="0 0 {width} {height}" width="{width}" height="{height}"'
    return f'<svg xmlns="http://www.w3.org/2000/svg" {size}>\n<style>{STYLE}</style>\n'


class Svg:
    """The rows from one to another, with the header and the legend."""

    def __init__(self, picture: Picture, first: int, last: int):
        self.picture, self.first, self.last = picture, first, last
        self.height = TOP + (last - first) * ROW
        self.width = picture.width + TEXT
        self.parts: list[str] = []

    def y(self, row: float) -> float:
        """The middle of a row; for those before and behind the picture its edges."""
        if row < self.first:
            return TOP
        return min(TOP + (row - self.first) * ROW + ROW / 2, self.height)

    def text(self) -> str:
        legend = Legend(self.kinds(), self.picture.left_out, self.width)
        whole = self.height + legend.height
        self.draw()
        return (svg_head(self.width, whole) + f'<rect width="{self.width}" height="{whole}" fill="#fff"/>\n'
                + "\n".join(self.parts) + f'\n<g transform="translate(0 {self.height})">\n' + "\n".join(legend.parts) + "\n</g>\n</svg>\n")

    def kinds(self) -> set[str]:
        """The marks and stretches that are in the picture: the legend has no others."""
        rows = self.picture.rows[self.first:self.last]
        kinds = {mark[0] for row in rows for mark in row.marks} | {row.event for row in rows}
        kinds |= {style for _, first, last, style in self.picture.spans if self.y(last) > self.y(first)}
        return kinds | ({"sync"} if "take" in kinds else set())

    def draw(self) -> None:
        self.draw_lanes()
        self.draw_heads()
        for column, first, last, style in self.picture.spans:
            y, to = self.y(first), self.y(last)
            if to > y:
                self.parts.append(stretch(self.picture.columns[column].x, y, to, style))
        for at in range(self.first, self.last):
            self.draw_row(self.picture.rows[at], self.y(at))

    def draw_lanes(self) -> None:
        for at, lane in enumerate(self.picture.lanes):
            self.parts.append(f'<rect class="gone" x="{lane.x}" y="{TOP}" width="{lane.width}" height="{self.height - TOP}"/>')
            for which, first, last in self.picture.lives:
                y, to = self.y(first), self.y(last)
                if which == at and to > y:
                    self.parts.append(f'<rect class="lane" x="{lane.x}" y="{y:g}" width="{lane.width}" height="{to - y:g}"/>')

    def draw_heads(self) -> None:
        self.parts.append('<text class="place" x="46" y="34">place</text>')
        self.parts.append(f'<text x="{self.picture.width}" y="34" class="pale">what the entry says</text>')
        for lane in self.picture.lanes:
            self.parts.append(f'<text class="cluster" x="{lane.x + lane.width / 2:g}" y="18">cluster {lane.cluster}</text>')
        for column in self.picture.columns:
            name = "pages" if column.pid is None else f"({column.pid})" if column.is_backup else str(column.pid)
            title = f"the page server of cluster {column.cluster}" if column.pid is None else self.picture.names[column.pid]
            style = "pid pale" if column.is_backup or column.pid is None else "pid"
            self.parts.append(f'<text class="{style}" x="{column.x}" y="36">{name}<title>{escape(title)}</title></text>')

    def draw_row(self, row: Row, y: float) -> None:
        self.parts.append(f"<g><title>{escape(row.line)}</title>")
        if row.place is not None:
            self.parts.append(f'<text class="place" x="46" y="{y + 4:g}">{row.place}</text>')
        for at, lane in enumerate(self.picture.lanes):
            if row.event == "lost" and lane.cluster == row.cluster:
                self.parts.append(zigzag(lane.x - 3, lane.width + 6, y))
            if row.event == "done" and self.lives_to_the_end(at):
                self.parts.append(f'<path class="stroke" d="M{lane.x:g} {y - 2:g}h{lane.width}m0 4h{-lane.width}"/>')
        for mark in row.marks:
            xs = [self.picture.columns[column].x for column in mark[1:]]
            if mark[0] == "terminal":
                xs.append(self.picture.width - 6)
            self.parts.append(DRAWN[mark[0]](xs, y))
        style = ' class="lost"' if row.event == "lost" else ' class="italic"' if row.place is None else ""
        words = escape(row.text, quote=False)
        self.parts.append(f'<text{style} x="{self.picture.width}" y="{y + 4:g}" xml:space="preserve">{words}</text></g>')

    def lives_to_the_end(self, lane: int) -> bool:
        return any(which == lane and last == len(self.picture.rows) for which, _, last in self.picture.lives)


class Legend:
    """Samples of the marks in two columns, and below them what is left out."""

    def __init__(self, kinds: set[str], left_out: list[str], width: int):
        shown = [(kind, words) for kind, words in LEGEND if kind in kinds]
        rows = (len(shown) + 1) // 2
        self.parts: list[str] = []
        for at, (kind, words) in enumerate(shown):
            x, y = 20 + (at // rows) * width // 2, 24 + (at % rows) * LEGEND_ROW
            self.parts.append(self.sample(kind, x, y) + f'<text x="{x + 62:g}" y="{y + 4:g}">{words}</text>')
        for at, words in enumerate(left_out):
            self.parts.append(f'<text class="italic" x="20" y="{24 + (rows + at) * LEGEND_ROW + 4}">{escape(words)}</text>')
        self.height = 24 + (rows + len(left_out)) * LEGEND_ROW

    @staticmethod
    def sample(kind: str, x: float, y: float) -> str:
        if kind in STYLES:
            return stretch(x + 25, y - 7, y + 7, kind)
        if kind == "lost":
            return zigzag(x, 50, y)
        if kind in ("letter", "eof", "signal", "fetch", "pageis", "terminal", "birth", "move", "backup_given"):
            return DRAWN[kind]([x + 4, x + 46], y - (4 if kind == "move" else 0))
        if kind in ("sync", "page"):
            return DRAWN[kind]([x + 12], y) + DRAWN["synced" if kind == "sync" else "kept"]([x + 38], y)
        return DRAWN[kind]([x + 25], y)


def svg_of(picture: Picture, first_place: int, last_place: int) -> str:
    """The picture of the places from one to another, the last one left out."""
    places = [row.place for row in picture.rows]
    first = next((at for at, place in enumerate(places) if place is not None and place >= first_place), len(places))
    last = next((at for at, place in enumerate(places) if place is not None and place >= last_place), len(places))
    return Svg(picture, first if first_place > 0 else 0, max(first, last)).text()
