"""What a system text says of the placement at the start: its clusters, its page servers and its roots."""
from dataclasses import dataclass, field

from .reading import CLUSTERS, Malformed

ROOT_FIELDS = 8
SHAPES = {"clusters": "clusters N", "pager": "pager A B", "syncreads": "syncreads N", "syncsteps": "syncsteps N",
          "root": "root HOME BACKUP MODE NAME LIMIT BIRTHS TTY", "chan": "chan A B"}


@dataclass
class Root:
    pid: int
    home: int
    backup: int
    mode: str
    name: str


@dataclass
class System:
    clusters: int = 0
    pager: tuple[int, ...] = ()
    roots: list[Root] = field(default_factory=list)


def number(text: str, line: int, whole: str, limit: int) -> int:
    if not (text.isascii() and text.isdigit() and len(text) <= 10 and int(text) < limit):
        raise Malformed(line, f"a number below {limit}", whole)
    return int(text)


def read_system(text: bytes) -> System:
    """Reads the lines that place processes. Blocks of images are passed over: whether they are right, `t32 check` says."""
    system, inside, last = System(), False, 1
    for at, raw in enumerate(text.decode("latin-1").split("\n"), start=1):
        fields = [part for part in raw.split(" ") if part]
        if not fields or fields[0].startswith("#"):
            continue
        last = at
        if inside:
            inside = fields != ["end"]
        elif fields[0] in ("image", "asm"):
            inside = True
        else:
            take_line(system, fields, at, raw)
    if inside or not system.roots:
        wanted = "`end`, which closes the block" if inside else "a line `root`, of which a system has one or more"
        raise Malformed(last, wanted, "the end of the text")
    return system


def take_line(system: System, fields: list[str], at: int, raw: str) -> None:
    shape = SHAPES.get(fields[0])
    if shape is None or len(fields) != len(shape.split(" ")):
        raise Malformed(at, f"`{shape}`" if shape else "a line " + ", ".join(SHAPES) + ", image or asm of a system text", raw)
    if fields[0] == "clusters":
        system.clusters = number(fields[1], at, raw, CLUSTERS + 1)
    elif fields[0] == "pager":
        system.pager = tuple(number(part, at, raw, system.clusters) for part in fields[1:])
    elif fields[0] == "root":
        home, backup = (number(part, at, raw, system.clusters) for part in fields[1:3])
        if home == backup or fields[3] not in ("quarter", "half", "full"):
            raise Malformed(at, f"`{shape}` with two clusters that differ and the mode quarter, half or full", raw)
        serial = 1 + sum(root.home == home for root in system.roots)
        system.roots.append(Root(home + CLUSTERS * serial, home, backup, fields[3], fields[4]))
