"""Reads what `sim --log` and `run --log` print: the report, the schedule and the log, by the exact forms of docs/FORMATS.md."""
import re
from dataclasses import dataclass, field

# The forms of an entry behind `PLACE BY`, as docs/FORMATS.md has them. A capital is a number, HEX is bytes, and `P ..` are pids.
ENTRY_FORMS = (
    ("tty", "mail P at S out X tty T HEX"),
    ("letter", "mail P at S out X to Q end E HEX"),
    ("eof", "mail P at S out X to Q end E eof"),
    ("signal", "mail P at S to Q sig G"),
    ("birth", "birth P at S child C end E"),
    ("exit", "exit P at S exit N"),
    ("trap", "exit P at S trap N"),
    ("killed", "exit P at S killed N"),
    ("limit", "exit P at S limit"),
    ("page", "page P at S I"),
    ("sync", "sync P at S plain"),
    ("take", "sync P at S take G"),
    ("fetch", "fetch P I"),
    ("pageis", "pageis P I"),
    ("crash", "crash K place"),
    ("crash", "crash K step N"),
    ("crash", "crash K disk N"),
    ("return", "return K"),
    ("fresh", "rebackup P at S to K fresh"),
    ("standing", "rebackup P .. to K standing"),
    ("done", "done"),
    ("stop", "stop"),
)
LETTERS = frozenset({"tty", "letter", "eof", "signal"})
EXITS = frozenset({"exit", "trap", "killed", "limit"})
SYNCS = frozenset({"sync", "take"})
FROM_THE_BUS = frozenset({"crash", "return", "done", "stop"})

FIELDS = {"P": "pid", "S": "at", "X": "out", "T": "tty", "HEX": "data", "Q": "to", "E": "end", "G": "signal", "C": "child",
          "N": "number", "I": "page", "K": "cluster", "PLACE": "place"}
NUMBER = "(?:0|[1-9][0-9]*)"
LARGEST = 2 ** 64 - 1
CLUSTERS = 16


class Malformed(Exception):
    """A line that is none of those that may stand there, or one that another line contradicts."""

    def __init__(self, line: int, expected: str, found: str):
        super().__init__(f"line {line}: expected {expected}; found {shown_line(found)}")
        self.line = line


@dataclass(slots=True)
class Entry:
    """An entry of the log. A field that its kind does not have is None."""
    place: int
    by: int | None  # None: the bus
    kind: str
    line: str
    pid: int | None = None
    at: int | None = None
    out: int | None = None
    tty: int | None = None
    to: int | None = None
    end: int | None = None
    data: bytes | None = None
    signal: int | None = None
    child: int | None = None
    number: int | None = None
    page: int | None = None
    cluster: int | None = None
    pids: tuple[int, ...] = ()


@dataclass
class Output:
    """What was printed. `lines` has the number of the line on which a part stands, for what is said of a malformed input."""
    ttys: dict[int, bytes] = field(default_factory=dict)
    states: dict[int, str] = field(default_factory=dict)
    losses: list[tuple[str, int, int]] = field(default_factory=list)  # (crash or return, cluster, place)
    lost: tuple[int, int] | None = None
    syncs: int = 0
    withheld: int = 0
    entries: list[Entry] = field(default_factory=list)
    lines: dict[object, int] = field(default_factory=dict)

    def line_of(self, entry: Entry) -> int:
        return self.lines["log"] + 1 + entry.place


def shown_line(text: str) -> str:
    """A line as it is quoted: what is not printable as ?, and not more than 100 characters."""
    plain = "".join(c if " " <= c <= "~" else "?" for c in text[:100])
    return f'"{plain}"' + (" .." if len(text) > 100 else "")


def pattern_of(form: str) -> re.Pattern:
    """The lines of a form. `P ..` is one pid or more."""
    parts = []
    for part in form.replace("P ..", "PIDS").split(" "):
        if part == "PIDS":
            parts.append(f"(?P<pids>{NUMBER}(?: {NUMBER})*)")
        elif part == "HEX":
            parts.append("(?P<data>(?:[0-9a-f]{2})+)")
        elif part.isupper():
            parts.append(f"(?P<{FIELDS.get(part, part.lower())}>{NUMBER})")
        else:
            parts.append(re.escape(part))
    return re.compile(" ".join(parts), re.ASCII)


def forms_by_word() -> dict[str, list[tuple[str, str, re.Pattern]]]:
    by_word: dict[str, list[tuple[str, str, re.Pattern]]] = {}
    for kind, form in ENTRY_FORMS:
        by_word.setdefault(form.split(" ")[0], []).append((kind, form, pattern_of(form)))
    return by_word


FORMS = forms_by_word()
HEAD = re.compile(f"(?P<place>{NUMBER}) (?P<by>bus|{NUMBER}) (?P<what>.*)", re.ASCII)
TTY = pattern_of("tty T COUNT")
STATE = re.compile(f"pid (?P<pid>{NUMBER}) (?P<state>(?:exit|trap|killed) {NUMBER}|limit|waiting|running)", re.ASCII)
LOSS = re.compile(f"(?P<word>crash|return) (?P<cluster>{NUMBER}) at (?P<place>{NUMBER})", re.ASCII)
LOST = pattern_of("lost K at PLACE")
BUS = pattern_of("bus ENTRIES syncs SYNCS withheld WITHHELD")
SCHEDULE = pattern_of("schedule COUNT")
ITEM = re.compile(f"run {NUMBER} {NUMBER}|fork {NUMBER} {NUMBER}|take {NUMBER}", re.ASCII)
LOG = pattern_of("log COUNT")


class Lines:
    """Takes a text line by line, and knows the number of the line that comes next."""

    def __init__(self, text: bytes):
        self.text = text
        self.at = 0
        self.number = 1

    def peek(self) -> str | None:
        """The next line without its end; None where no ended line is left."""
        end = self.text.find(b"\n", self.at)
        return None if end < 0 else self.text[self.at:end].decode("latin-1")

    def refuse(self, expected: str) -> Malformed:
        line = self.peek()
        if line is None:
            line = self.text[self.at:].decode("latin-1")
            expected += ", and a line feed behind it" if line else ""
        if not line and self.at >= len(self.text):
            return Malformed(self.number, expected, "the end of the input")
        return Malformed(self.number, expected, line)

    def take_if(self, pattern: re.Pattern) -> re.Match | None:
        line = self.peek()
        found = None if line is None else pattern.fullmatch(line)
        if found:
            self.at += len(line) + 1
            self.number += 1
        return found

    def take(self, pattern: re.Pattern, expected: str) -> re.Match:
        found = self.take_if(pattern)
        if not found:
            raise self.refuse(expected)
        return found

    def take_bytes(self, count: int) -> bytes:
        """Bytes of a terminal, and the line feed behind them."""
        data = self.text[self.at:self.at + count]
        if len(data) < count or self.text[self.at + count:self.at + count + 1] != b"\n":
            raise Malformed(self.number, f"{count} bytes of the terminal and a line feed", data[:100].decode("latin-1"))
        self.at += count + 1
        self.number += data.count(b"\n") + 1
        return data


def read_entry(line: str, number: int) -> Entry:
    """The entry of a line."""
    head = HEAD.fullmatch(line)
    if not head:
        raise Malformed(number, "an entry, `PLACE BY` and what it says", line)
    what = head["what"]
    word = what.split(" ")[0]
    if word not in FORMS:
        raise Malformed(number, "an entry of one of the kinds " + ", ".join(FORMS), line)
    for kind, _, pattern in FORMS[word]:
        found = pattern.fullmatch(what)
        if found:
            by = None if head["by"] == "bus" else int(head["by"])
            return filled(Entry(int(head["place"]), by, kind, line), found, number)
    raise Malformed(number, " or ".join(f"`PLACE BY {form}`" for _, form, _ in FORMS[word]), line)


def filled(entry: Entry, found: re.Match, number: int) -> Entry:
    for name, text in found.groupdict().items():
        if name == "data":
            entry.data = bytes.fromhex(text)
        elif name == "pids":
            entry.pids = tuple(int(pid) for pid in text.split(" "))
        else:
            value = int(text)
            if value > LARGEST:
                raise Malformed(number, "numbers below 2^64", entry.line)
            setattr(entry, name, value)
    check_sender(entry, number)
    return entry


def check_sender(entry: Entry, number: int) -> None:
    """A loss, a return and the end come from the bus, and all else from a cluster; no cluster has a number above 15."""
    if (entry.by is None) != (entry.kind in FROM_THE_BUS):
        raise Malformed(number, "`bus` as the sender" if entry.by is not None else "a cluster as the sender", entry.line)
    for cluster in (entry.by, entry.cluster):
        if cluster is not None and cluster >= CLUSTERS:
            raise Malformed(number, f"a cluster below {CLUSTERS}", entry.line)


def read_report(lines: Lines, output: Output) -> None:
    """The terminals, the processes, the losses and the counts."""
    while True:
        number = lines.number
        found = lines.take_if(TTY)
        if not found:
            break
        output.lines["tty", int(found["tty"])] = number
        output.ttys[int(found["tty"])] = lines.take_bytes(int(found["count"]))
    if not output.ttys:
        raise lines.refuse("`tty T COUNT`, the first line of what `sim --log` or `run --log` prints")
    while True:
        number = lines.number
        found = lines.take_if(STATE)
        if not found:
            break
        output.lines["pid", int(found["pid"])] = number
        output.states[int(found["pid"])] = found["state"]
    if not output.states:
        raise lines.refuse("`tty T COUNT` or `pid P STATE`")
    read_losses(lines, output)
    output.lines["bus"] = lines.number
    found = lines.take(BUS, "`bus N syncs M withheld W`")
    output.lines["entries"] = int(found["entries"])
    output.syncs, output.withheld = int(found["syncs"]), int(found["withheld"])


def read_losses(lines: Lines, output: Output) -> None:
    output.lines["losses"] = lines.number
    if not lines.take_if(re.compile("crash none")):
        while True:
            found = lines.take_if(LOSS)
            if not found:
                break
            output.losses.append((found["word"], int(found["cluster"]), int(found["place"])))
        if not output.losses:
            raise lines.refuse("`pid P STATE`, `crash none` or `crash K at N`")
    found = lines.take_if(LOST)
    if found:
        output.lost = (int(found["cluster"]), int(found["place"]))


def read_output(text: bytes) -> Output:
    """What was printed, the log included. It raises Malformed with the first line that cannot stand where it stands."""
    lines, output = Lines(text), Output()
    read_report(lines, output)
    for _ in range(int(lines.take(SCHEDULE, "`schedule N`")["count"])):
        lines.take(ITEM, "an item of the schedule: `run P N`, `fork P C` or `take P`")
    output.lines["log"] = lines.number
    found = lines.take(LOG, "`log N`, which stands there where the run had the word --log")
    count = int(found["count"])
    for place in range(count):
        number, line = lines.number, lines.peek()
        if line is None:
            raise lines.refuse(f"the entry at place {place} of {count}")
        entry = read_entry(line, number)
        if entry.place != place:
            raise Malformed(number, f"the place {place}", line)
        lines.at += len(line) + 1
        lines.number += 1
        output.entries.append(entry)
    if lines.at < len(text):
        raise lines.refuse(f"the end of the input behind {count} entries")
    return output
