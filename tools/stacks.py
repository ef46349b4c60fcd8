"""How much of the stack the calls of a C program take, by the call graphs that GCC writes (-fcallgraph-info=su)."""
import re
from dataclasses import dataclass, field
from typing import Dict, List, Optional, Set, Tuple

NODE = re.compile(r'^node: \{ title: "([^"]+)" label: "[^"]*\\n(\d+) bytes \((static|dynamic|dynamic,bounded)\)', re.MULTILINE)
EDGE = re.compile(r'^edge: \{ sourcename: "([^"]+)" targetname: "([^"]+)"', re.MULTILINE)
BY_POINTER = "__indirect_call"
# What the arithmetic of libgcc may take, of which there is no graph.
OF_LIBRARY = 64


@dataclass
class Depth:
    """What the calls take: so many bytes from main on, and from a handler of signals on, which is called on top of it; by which calls; and
    what makes it more than that."""

    bytes: int
    calls: List[str]
    handlers: int = 0
    rounds: List[Tuple[List[str], int]] = field(default_factory=list)
    by_pointer: bool = False

    def whole(self) -> int:
        return self.bytes + self.handlers


def read_graphs(texts: List[str]) -> Tuple[Dict[str, int], Dict[str, Set[str]]]:
    """The bytes that each function takes by itself, and which functions each one calls."""
    frames: Dict[str, int] = {}
    calls: Dict[str, Set[str]] = {}
    for text in texts:
        frames.update((title, int(size)) for title, size, _ in NODE.findall(text))
        for caller, called in EDGE.findall(text):
            calls.setdefault(caller, set()).add(called)
    return frames, calls


def reached(calls: Dict[str, Set[str]], begin: str) -> Set[str]:
    """What a function calls, and what that calls in turn, and so on; itself only where it comes back to it."""
    found: Set[str] = set()
    left = list(calls.get(begin, ()))
    while left:
        name = left.pop()
        if name not in found:
            found.add(name)
            left += calls.get(name, ())
    return found


def depth_of(texts: List[str]) -> Optional[Depth]:
    """The depth of a program, or nothing where no graph tells of a main. A round of functions that call each other is counted once."""
    frames, calls = read_graphs(texts)
    if "main" not in frames:
        return None
    reach = {name: reached(calls, name) for name in frames}
    # Functions that call each other are one knot, which is named by the first of them.
    knots = {name: sorted({name} | {it for it in reach[name] if name in reach.get(it, ())}) for name in frames}
    deepest: Dict[str, Tuple[int, List[str]]] = {}

    def frame(name: str) -> int:
        return frames.get(name, OF_LIBRARY if name.startswith("__") and name != BY_POINTER else 0)

    def deep(name: str) -> Tuple[int, List[str]]:
        knot = knots.get(name, [name])
        if knot[0] not in deepest:
            behind = {it for each in knot for it in calls.get(each, ())} - set(knot)
            most, path = max((deep(it) for it in sorted(behind)), default=(0, []), key=lambda found: found[0])
            deepest[knot[0]] = sum(frame(it) for it in knot) + most, [shown(it) for it in knot] + path
        return deepest[knot[0]]

    bytes_of, path = deep("main")
    # A function that nothing calls by name is one whose address is given away, as that of a handler is.
    called = {it for each in calls.values() for it in each}
    handlers = max((deep(name)[0] for name in frames if name != "main" and name not in called), default=0)
    rounds = {tuple(knot): sum(frame(it) for it in knot) for name, knot in knots.items() if name in reach[name]}
    return Depth(bytes_of, path, handlers, [([shown(it) for it in knot], size) for knot, size in sorted(rounds.items())],
                 BY_POINTER in called)


def shown(title: str) -> str:
    """The name of a function: the graph has that of its file before it, where it is known there alone, and a suffix of a copy behind it."""
    return title.rsplit(":", 1)[-1].split(".")[0]
