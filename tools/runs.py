"""Runs the program t32 on a text, and reads the reports that it prints."""
import os
import re
import select
import signal
import subprocess
import time
from dataclasses import dataclass, field
from typing import Dict, List, Optional, Sequence, Tuple

TOP = os.path.dirname(os.path.dirname(os.path.abspath(__file__)))
UNPROVED = os.path.join(TOP, "build", "unproved", "t32")

TERMINAL = re.compile(rb"tty (\d+) (\d+)\n")
PROCESS = re.compile(rb"pid (\d+) [^\n]*\n")
TURN = re.compile(rb"(crash|return) (\d+) at (\d+)")
LOST = re.compile(rb"lost (\d+) at (\d+)")
COUNTS = re.compile(rb"bus (\d+) syncs (\d+) withheld (\d+)")
HEAD = re.compile(rb"(schedule|log) (\d+)")
PAGES = (b"fetch", b"pageis")


class NoProgram(Exception):
    """There is no program to run; the text says why."""


class Unreadable(Exception):
    """What was printed is no report; the text says where."""


@dataclass(frozen=True)
class Answer:
    """How a run of the program ended. No status means that it was still running when its time was over."""

    status: Optional[int]
    output: bytes
    said: bytes

    def ending(self) -> str:
        """How it ended, in words."""
        if self.status is None:
            return "it did not end in time"
        if self.status < 0:
            return f"signal {-self.status} ended it"
        why = self.said.decode(errors="replace").split("\n")[0]
        return f"it ended with status {self.status}" + (f": {why}" if why else "")


def find_program(given: Optional[str]) -> str:
    """The path of the program: the given one, or that of the launcher, which builds it where it has to."""
    if given is not None:
        if not os.path.isfile(given) or not os.access(given, os.X_OK):
            raise NoProgram(f"{given} is no program that can be run")
        return os.path.abspath(given)
    try:
        asked = subprocess.run([os.path.join(TOP, "t32")], env={**os.environ, "T32_WHERE": "1"}, stdin=subprocess.DEVNULL,
                               stdout=subprocess.PIPE, check=True)
    except (OSError, subprocess.CalledProcessError) as error:
        raise NoProgram("the launcher ./t32 has no program") from error
    return os.fsdecode(asked.stdout).rstrip("\n")


def text_as_input(text: bytes) -> int:
    """An open file without a name that has the text, to be read from its start."""
    file = os.memfd_create("text")
    left = memoryview(text)
    while left:
        left = left[os.write(file, left):]
    os.lseek(file, 0, os.SEEK_SET)
    return file


def gather(outputs: Dict[int, List[bytes]], seconds: float) -> bool:
    """Reads these ends of pipes until all are closed, or the time is over: whether they were closed."""
    ends, waiting = time.monotonic() + seconds, select.poll()
    for end in outputs:
        waiting.register(end, select.POLLIN)
    left = set(outputs)
    while left:
        ready = waiting.poll(max(0.0, ends - time.monotonic()) * 1000)
        if not ready:
            return False
        for end, _ in ready:
            read = os.read(end, 1 << 20)
            outputs[end].append(read)
            if not read:
                waiting.unregister(end)
                left.remove(end)
    return True


def call(program: str, words: Sequence[str], text: bytes, seconds: float = 60.0) -> Answer:
    """Runs the program with these words on a text. It is spawned without a shell and without a copy of this process, which is
    what most of the time would go to."""
    given = text_as_input(text)
    output, written = os.pipe()
    said, told = os.pipe()
    placed = [(os.POSIX_SPAWN_DUP2, end, at) for at, end in enumerate((given, written, told))]
    try:
        child = os.posix_spawn(program, [program, *words], os.environ, file_actions=placed)
    except OSError as error:
        os.close(output)
        os.close(said)
        raise NoProgram(f"{program} does not start: {error.strerror}") from error
    finally:
        for end in (given, written, told):
            os.close(end)
    parts: Dict[int, List[bytes]] = {output: [], said: []}
    in_time = gather(parts, seconds)
    if not in_time:
        os.kill(child, signal.SIGKILL)
    status = os.waitstatus_to_exitcode(os.waitpid(child, 0)[1])
    os.close(output)
    os.close(said)
    return Answer(status if in_time else None, b"".join(parts[output]), b"".join(parts[said]))


@dataclass
class Report:
    """What `sim` or `run` printed: the terminals and processes, and what stands behind them."""

    front: bytes
    losses: List[Tuple[int, int]] = field(default_factory=list)
    returns: List[Tuple[int, int]] = field(default_factory=list)
    lost: bool = False
    entries: int = 0
    synchronisations: int = 0
    withheld: int = 0
    schedule: bytes = b""
    log: List[bytes] = field(default_factory=list)

    def recovery(self) -> int:
        """The most entries from a loss to the last page that was asked for or came before the next loss."""
        most, begin = 0, None
        for place, line in enumerate(self.log):
            fields = line.split(b" ", 3)
            if fields[2:3] == [b"crash"]:
                begin = place
            elif begin is not None and fields[2] in PAGES:
                most = max(most, place - begin)
        return most


def end_of_front(output: bytes) -> int:
    """Where the terminals and processes end. A terminal's bytes are counted, since any may stand among them."""
    at = 0
    while found := TERMINAL.match(output, at):
        at = found.end() + int(found[2])
        if output[at:at + 1] != b"\n":
            raise Unreadable(f"terminal {int(found[1])} has not the {int(found[2])} bytes that its line counts")
        at += 1
    while found := PROCESS.match(output, at):
        at = found.end()
    return at


def read_report(output: bytes) -> Report:
    """The report that was printed."""
    end = end_of_front(output)
    report = Report(output[:end])
    if not output.endswith(b"\n") or end == 0:
        raise Unreadable("what it printed is no report")
    lines = output[end:-1].split(b"\n")
    at = 0
    if lines[0] == b"crash none":
        at = 1
    while at < len(lines) and (found := TURN.fullmatch(lines[at])):
        told = report.losses if found[1] == b"crash" else report.returns
        told.append((int(found[2]), int(found[3])))
        at += 1
    if at == 0:
        raise Unreadable("no line tells of a loss")
    if at < len(lines) and LOST.fullmatch(lines[at]):
        report.lost, at = True, at + 1
    counts = COUNTS.fullmatch(lines[at]) if at < len(lines) else None
    if counts is None:
        raise Unreadable("the line that counts the entries is missing")
    report.entries, report.synchronisations, report.withheld = (int(it) for it in counts.groups())
    report.schedule, at = read_block(lines, at + 1, b"schedule")
    if at < len(lines):
        log, at = read_block(lines, at, b"log")
        report.log = log.split(b"\n")[1:-1]
        if len(report.log) != report.entries:
            raise Unreadable(f"the log has {len(report.log)} lines, and {report.entries} entries are counted")
    if at != len(lines):
        raise Unreadable("more lines stand behind the report")
    return report


def read_block(lines: List[bytes], at: int, word: bytes) -> Tuple[bytes, int]:
    """The block of a word, with its first line, and where the next one begins."""
    found = HEAD.fullmatch(lines[at]) if at < len(lines) else None
    if found is None or found[1] != word:
        raise Unreadable(f"the line `{word.decode()}` is missing")
    end = at + 1 + int(found[2])
    if end > len(lines):
        raise Unreadable(f"the {word.decode()} has fewer lines than it says")
    return b"\n".join(lines[at:end]) + b"\n", end
