"""The picture of a log without its drawing: columns, the stretches that are drawn down them, and the marks of each row.

A row is an entry, or stands between two entries for a process that rolls forward. What draws it, as SVG or in a page, has
nothing to find out: it puts each mark at its columns.
"""
from dataclasses import dataclass, field

from .backups import UNTOLD
from .reading import EXITS, Entry
from .story import BOOT, Move, Stay, Story
from .words import phrase, places_listed

COLUMN = 36  # the width of a column, and the gaps round a lane
PADDING = 6
GAP = 14
LISTED = 12  # as many characters of places does the row of a process that rolls forward list
PLACES = 46  # what the numbers of the places take on the left

# Each mark with its columns; the drawings have one function for each, by this name.
MARKS = ("line", "letter", "eof", "signal", "loop", "nowhere", "saved", "counted", "terminal", "page", "kept", "sync", "take", "synced",
         "birth", "exit", "fetch", "pageis", "move", "withheld", "backup_given")
STYLES = ("runs", "backup", "waits", "rolls", "again")


@dataclass
class Column:
    cluster: int
    pid: int | None  # None: the page server's own column
    x: int
    is_backup: bool  # whether it begins as that of a backup


@dataclass
class Lane:
    cluster: int
    x: int
    width: int


@dataclass
class Row:
    place: int | None
    text: str
    line: str
    marks: list[tuple] = field(default_factory=list)
    pids: tuple[int, ...] = ()  # whom it concerns
    event: str = ""  # lost, returned or done: drawn over lanes
    cluster: int | None = None


@dataclass
class Picture:
    columns: list[Column] = field(default_factory=list)
    lanes: list[Lane] = field(default_factory=list)
    rows: list[Row] = field(default_factory=list)
    spans: list[tuple[int, int, int, str]] = field(default_factory=list)  # (column, from row, to row, style)
    lives: list[tuple[int, int, int]] = field(default_factory=list)  # (lane, from row, to row)
    width: int = 0
    names: dict[int, str] = field(default_factory=dict)
    left_out: list[str] = field(default_factory=list)


class Drawer:
    """Makes the picture of a story. A row before the first entry has the number -1, as BOOT."""

    def __init__(self, story: Story):
        self.story = story
        self.entries = story.output.entries
        self.picture = Picture()
        self.at: dict[tuple[int, int | None], int] = {}
        self.row_of: dict[int, int] = {BOOT: -1}
        self.answered_by = self.answers()
        self.lay_out()
        self.make_rows()
        self.make_spans()
        self.tell_names()

    # ---- columns

    def lay_out(self) -> None:
        """A lane for each cluster; in it the page server first, then who is at home there, then the backups."""
        first: dict[tuple[int, int], bool] = {}
        for stay in self.story.stays:
            if isinstance(stay.cluster, int):
                first.setdefault((stay.cluster, stay.pid), stay.is_backup)
        servers = self.serving()
        x = PLACES + GAP
        for cluster in self.story.clusters:
            keys = sorted((backup, pid) for (c, pid), backup in first.items() if c == cluster)
            width = 2 * PADDING + COLUMN * max(2, len(keys) + (cluster in servers))
            self.picture.lanes.append(Lane(cluster, x, width))
            at = x + PADDING + COLUMN // 2
            for backup, pid in [(False, None)] * (cluster in servers) + keys:
                self.at[cluster, pid] = len(self.picture.columns)
                self.picture.columns.append(Column(cluster, pid, at, backup))
                at += COLUMN
            x += width + GAP
        self.picture.width = x

    def serving(self) -> set[int]:
        """The page servers: by the system text, or those that served a page."""
        if self.story.system:
            return set(self.story.system.pager)
        return {entry.by for entry in self.entries if entry.kind == "pageis"}

    def column(self, cluster, pid: int | None) -> int | None:
        return self.at.get((cluster, pid)) if isinstance(cluster, int) else None

    # ---- rows

    def make_rows(self) -> None:
        begun: dict[int, list[Move]] = {}
        for move in self.story.moves:
            if move.whole is not None:
                begun.setdefault(move.whole, []).append(move)
        for entry in self.entries:
            self.row_of[entry.place] = len(self.picture.rows)
            self.picture.rows.append(self.row(entry))
            for move in begun.get(entry.place, []):
                self.picture.rows.append(self.rolling(move))

    def row(self, entry: Entry) -> Row:
        told = self.story.told[entry.place]
        pids = tuple(pid for pid in (entry.pid, entry.to, entry.child, *entry.pids) if pid is not None)
        row = Row(entry.place, phrase(entry), entry.line, self.marks(entry), pids)
        if entry.kind == "crash":
            row.event, row.cluster = "lost", entry.cluster
            row.pids = tuple(move.pid for move in told.moves)
        elif entry.kind == "return":
            row.event, row.cluster = "returned", entry.cluster
        elif entry.kind in ("done", "stop"):
            row.event = "done"
        return row

    def rolling(self, move: Move) -> Row:
        """The row in which a process does again what it did."""
        goes = f"goes on at step {move.start_steps}"
        if move.steps > move.start_steps:
            goes = f"again from step {move.start_steps} to {move.steps}"
        listed = " ".join(map(str, move.withheld))
        if len(listed) > LISTED:
            listed = f"{len(move.withheld)}: {move.withheld[0]} .. {move.withheld[-1]}"
        withheld = f"withholds {listed}" if listed else "nothing to withhold"
        row = Row(None, f"{move.pid} {goes}, {withheld}", self.rolling_line(move), pids=(move.pid,))
        column = self.column(move.target, move.pid)
        if column is not None and move.withheld:
            row.marks.append(("withheld", column))
        return row

    @staticmethod
    def rolling_line(move: Move) -> str:
        since = "the start" if move.start == BOOT else f"place {move.start}"
        return (f"between the entries: {move.pid} does again in cluster {move.target} what it did since {since}; "
                f"to be withheld: {len(move.withheld)}" + (f", sent at {' '.join(map(str, move.withheld))}" if move.withheld else ""))

    def marks(self, entry: Entry) -> list[tuple]:
        told = self.story.told[entry.place]
        marks: list[tuple] = []
        sender = self.column(told.sender, entry.pid)
        if entry.kind in ("letter", "eof", "signal"):
            self.letter_marks(entry, sender, marks)
        elif entry.kind == "tty":
            marks.append(("terminal", sender))
        elif entry.kind == "birth":
            marks.append(("birth", sender, self.column(told.sender, entry.child)))
        elif entry.kind in EXITS:
            marks.append(("exit", sender))
        elif entry.kind in ("page", "sync", "take"):
            marks.append((entry.kind, sender))
        elif entry.kind in ("fetch", "pageis"):
            self.page_marks(entry, marks)
        elif entry.kind == "crash":
            marks += [("move", self.column(m.origin, m.pid), self.column(m.target, m.pid)) for m in told.moves]
        elif entry.kind in ("fresh", "standing"):
            for pid in entry.pids or (entry.pid,):
                marks.append(("backup_given", self.column(told.sender, pid), self.column(entry.cluster, pid)))
        self.dots(entry, marks)
        return [mark for mark in marks if None not in mark]

    def letter_marks(self, entry: Entry, sender: int | None, marks: list[tuple]) -> None:
        told = self.story.told[entry.place]
        receiver = self.column(told.receiver, entry.to)
        if not told.arrives:
            marks.append(("nowhere", sender))
        elif receiver == sender:
            marks.append(("loop", sender))
        else:
            marks.append((entry.kind, sender, receiver))

    def page_marks(self, entry: Entry, marks: list[tuple]) -> None:
        told = self.story.told[entry.place]
        if entry.kind == "pageis":
            marks.append(("pageis", self.column(told.sender, None), self.column(told.receiver, entry.pid)))
            return
        server = told.servers[0] if told.servers else self.answered_by.get(entry.place)
        marks.append(("fetch", self.column(told.sender, entry.pid), self.column(server, None)))

    def answers(self) -> dict[int, int]:
        """The page server that answers each fetch: the next that serves this page."""
        served: dict[tuple[int, int], int] = {}
        found: dict[int, int] = {}
        for entry in reversed(self.entries):
            if entry.kind == "pageis":
                served[entry.pid, entry.page] = entry.by
            elif entry.kind == "fetch" and (entry.pid, entry.page) in served:
                found[entry.place] = served[entry.pid, entry.page]
        return found

    def dots(self, entry: Entry, marks: list[tuple]) -> None:
        """Who else takes the entry in: the backups that save and count it, and the page servers that keep it."""
        told = self.story.told[entry.place]
        dots = [("saved", self.column(told.saved, entry.to))]
        if entry.kind in ("tty", "letter", "eof", "signal", "birth"):
            dots.append(("counted", self.column(told.counted, entry.pid)))
        elif entry.kind in ("sync", "take"):
            dots.append(("synced", self.column(told.counted, entry.pid)))
        if entry.kind in ("page", "sync", "take"):
            dots += [("kept" if entry.kind == "page" else "synced", self.column(server, None)) for server in told.servers]
        dots = [dot for dot in dots if dot[1] is not None]
        if dots and marks:
            ends = [column for mark in marks + dots for column in mark[1:] if column is not None]
            marks.insert(0, ("line", min(ends), max(ends)))
        marks += dots

    # ---- stretches

    def make_spans(self) -> None:
        end = len(self.picture.rows)
        self.row_of[len(self.entries)] = end
        for stay in self.story.stays:
            column = self.column(stay.cluster, stay.pid)
            if column is not None:
                self.picture.spans += [(column, a, b, style) for a, b, style in self.stretches(stay) if b > a]
        for move in self.story.moves:
            self.made_again(move)
        lanes = {lane.cluster: at for at, lane in enumerate(self.picture.lanes)}
        self.picture.lives = [(lanes[c], self.row_of[a], self.row_of[b]) for c, a, b in self.story.lives]
        self.picture.spans.sort(key=lambda span: (span[3] != "again", span[1], span[0]))

    def stretches(self, stay: Stay) -> list[tuple[int, int, str]]:
        first, last = self.row_of[stay.first], self.row_of[stay.last]
        if stay.is_backup:
            return [(first, last, "backup")]
        if not stay.move:
            return [(first, last, "runs")]
        whole, deed = stay.move.whole, stay.move.deed
        comes = last if whole is None else min(last, self.row_of[whole])
        acts = last if deed is None else min(last, self.row_of[deed])
        if whole is None:  # a child whose parent's pages never came, or pages that never came
            comes = acts
        return [(first, comes, "waits"), (comes, acts, "rolls"), (acts, last, "runs")]

    def made_again(self, move: Move) -> None:
        """What the lost process did since it started, which its backup does again."""
        column = self.column(move.origin, move.pid)
        first, last = self.row_of[max(move.start, move.came_there)], self.row_of[move.place]
        if column is not None and move.is_sure and move.steps > move.start_steps:
            self.picture.spans.append((column, first, last, "again"))
        target = self.column(move.target, move.pid)
        if target is not None and move.whole is not None and move.steps > move.start_steps:
            row = next(i for i in range(self.row_of[move.whole] + 1, len(self.picture.rows)) if self.picture.rows[i].pids == (move.pid,))
            self.picture.spans.append((target, row - 1, row + 1, "again"))

    # ---- names

    def tell_names(self) -> None:
        picture = self.picture
        for pid, process in self.story.processes.items():
            picture.names[pid] = f"process {pid}" + (f", a child of {process.parent}" if process.parent is not None else "")
        if self.story.system:
            for root in self.story.system.roots:
                picture.names[root.pid] = f"process {root.pid}, {root.name}"
            return
        untold = [pid for pid, process in sorted(self.story.processes.items()) if process.backup == UNTOLD]
        if untold:
            picture.left_out.append(f"backups not told by the log: {places_listed(untold, 12)} (--system TEXT tells them)")
        picture.left_out.append("page servers: only those that served a page (--system TEXT tells all)")


def picture_of(story: Story) -> Picture:
    return Drawer(story).picture
