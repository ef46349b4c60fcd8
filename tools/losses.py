"""One run of the program by words that lose clusters and bring them back, and whether it is explained."""
import re
from dataclasses import dataclass, field
from typing import Dict, List, Optional, Sequence, Tuple

import coverage
import runs
from t32log.system import System

# How many answers of `plain` are kept.
KEPT = 4096
# The kinds of losses by `sim` that name what the run without them comes to, so that a cluster has to be lost.
REACHED = ("place", "step", "disk call")
# What the program notes of a run beside its report: a word that it did not come to, and a process that ended by a trap.
UNREACHED = re.compile(rb"t32: (?:crash|disk|return):[0-9@a-z:]+ was not reached; [a-z ]+: \d+\n")
TRAP = re.compile(rb"t32: pid \d+: trap \d+ at pc 0x[0-9a-f]+(?:, line \d+ of the text)?\n")


@dataclass(frozen=True)
class Loss:
    """One run of the campaign: its kind, and the words of the program, of which the last ones lose clusters and bring them back."""

    kind: str
    words: Tuple[str, ...]

    def script(self) -> List[str]:
        return [word for word in self.words if "@" in word]


@dataclass
class Outcome:
    """What came of one run, and its terminals and processes. Where it is not explained, `why` says so, and both outputs are there."""

    is_lost: bool = False
    is_same: bool = False
    ends_lost: bool = False
    entries: int = 0
    synchronisations: int = 0
    withheld: int = 0
    recovery: int = 0
    why: str = ""
    front: bytes = b""
    printed: bytes = b""
    wanted: bytes = b""


@dataclass
class Setting:
    """What every run needs: the program, the text, what its roots and page servers are, and the run without a loss."""

    program: str
    text: bytes
    seconds: float
    system: Optional[System] = None
    base: Optional[runs.Report] = None
    plains: Dict[bytes, runs.Answer] = field(default_factory=dict)

    def run(self, *words: str) -> runs.Answer:
        return runs.call(self.program, words, self.text, self.seconds)

    def plain(self, schedule: bytes) -> runs.Answer:
        """What `plain` prints by a schedule. Many losses leave the same one, so that it is asked once."""
        if schedule not in self.plains:
            if len(self.plains) >= KEPT:
                self.plains.clear()
            text = self.text if self.text.endswith(b"\n") else self.text + b"\n"
            self.plains[schedule] = runs.call(self.program, ["plain"], text + schedule, self.seconds)
        return self.plains[schedule]


def first_difference(one: bytes, other: bytes) -> str:
    """Where two texts differ, in words."""
    at = next((at for at, (a, b) in enumerate(zip(one, other)) if a != b), min(len(one), len(other)))
    line = one.count(b"\n", 0, at) + 1
    return f"from byte {at}, in line {line}"


def told_entry(word: str, place: int) -> bytes:
    """The line of the log by which the loss or the return of a word is told, at its place."""
    back = re.fullmatch(r"return:(\d+)@bus:\d+", word)
    if back is not None:
        return b"%d bus return %d" % (place, int(back[1]))
    found = re.fullmatch(r"crash:(\d+)@(bus|step):(\d+)|disk:(\d+)@(\d+)", word)
    if found is None:
        raise ValueError(word)
    if found[4] is not None:
        return b"%d bus crash %d disk %d" % (place, int(found[4]), int(found[5]))
    why = b"place" if found[2] == "bus" else b"step %d" % int(found[3])
    return b"%d bus crash %d %s" % (place, int(found[1]), why)


def wrong_turns(report: runs.Report, script: Sequence[str]) -> str:
    """How what is told of losses and returns differs from the script, or nothing."""
    told = [("crash", "is told as lost", "is lost", *it) for it in report.losses]
    told += [("return", "is told as back", "comes back", *it) for it in report.returns]
    for name, is_told, does, cluster, place in told:
        entry = report.log[place] if place < len(report.log) else b"nothing"
        words = [word for word in script if f":{cluster}@" in word and word.startswith("return:") == (name == "return")]
        if entry not in [told_entry(word, place) for word in words]:
            return f"cluster {cluster} {is_told} at {place}, where the log has: {entry.decode(errors='replace')}"
        # Of two words at one place the second is told behind the first.
        named = [f"{name}:{cluster}@bus:{place - later}" for later in range(len(script))]
        if (name == "return" or entry.endswith(b" place")) and not any(word in script for word in named):
            return f"cluster {cluster} {does} at {place}, which no word names"
    return ""


def wrong_notes(said: bytes, report: runs.Report, script: Sequence[str]) -> str:
    """What is said of a run beside its notes, or that a word by which a cluster was lost or came back is noted as not reached, or nothing."""
    unreached, others = UNREACHED.findall(said), TRAP.sub(b"", UNREACHED.sub(b"", said))
    if others:
        return f"it said on standard error: {others.decode(errors='replace').strip()}"
    if len(unreached) + len(report.losses) + len(report.returns) > len(script):
        back = f" and brought {len(report.returns)} back" if report.returns else ""
        return f"it lost {len(report.losses)} clusters{back}, and noted {len(unreached)} of {len(script)} words as not reached"
    return ""


def wrong_end(setting: Setting, status: Optional[int], report: runs.Report) -> str:
    """How the status differs from what the report and its log tell, or nothing."""
    if report.lost != (status == 7):
        return f"it ended with status {status}, and a line says {'lost' if report.lost else 'nothing of lost'}"
    if setting.system is None or not report.log:
        return ""
    try:
        wanted = coverage.status_by(setting.system, report.log)
    except (KeyError, IndexError, ValueError):
        return "its log has a line that cannot stand there"
    if wanted == status:
        return ""
    return f"it ended with status {status}, and by its log " + (
        "something stands behind a loss that was not covered" if wanted is None else
        f"{'each loss was' if wanted == 0 else 'its last entry is a loss that was not'} covered")


def judged(setting: Setting, loss: Loss) -> Outcome:
    """Runs one loss, and asks `plain` about it."""
    answer = setting.run(*loss.words)
    outcome = Outcome(printed=answer.output)
    ends = (0, 7) if len(loss.script()) > 1 else (0,)
    if answer.status not in ends:
        outcome.why = answer.ending()
        return outcome
    try:
        report = runs.read_report(answer.output)
    except runs.Unreadable as unreadable:
        outcome.why = str(unreadable)
        return outcome
    plain = setting.plain(report.schedule)
    outcome.front, outcome.wanted = report.front, plain.output
    if plain.status != 0:
        outcome.why = f"`plain` refuses the printed schedule: {plain.ending()}"
    elif plain.output != report.front:
        outcome.why = f"`plain` prints other terminals or processes by the printed schedule, {first_difference(plain.output, report.front)}"
    else:
        outcome.why = wrong_end(setting, answer.status, report) or wrong_turns(report, loss.script())
    if not outcome.why and answer.status == 0:
        outcome.why = wrong_notes(answer.said, report, loss.script())
    if not outcome.why and not report.losses and loss.kind in REACHED:
        outcome.why = "no cluster was lost, and without the word the run comes to that place, step or call"
    if setting.base is not None:
        outcome.is_same = report.front == setting.base.front
        outcome.entries = report.entries - setting.base.entries
    outcome.is_lost, outcome.ends_lost, outcome.recovery = bool(report.losses), report.lost, report.recovery()
    outcome.synchronisations, outcome.withheld = report.synchronisations, report.withheld
    if not outcome.why:
        # They are needed only of a run that is not explained.
        outcome.printed = outcome.wanted = b""
    return outcome
