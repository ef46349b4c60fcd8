"""What the tests of tools/ over printed logs share: the logs that are kept here, the system texts behind them, and the tools called."""
import os
import subprocess
import sys
import tempfile

sys.dont_write_bytecode = True
TESTS = os.path.dirname(os.path.abspath(__file__))
TOP = os.path.dirname(os.path.dirname(TESTS))
sys.path.insert(0, os.path.join(TOP, "tools"))

from t32log.agreeing import check_report  # noqa: E402
from t32log.reading import read_output  # noqa: E402
from t32log.story import Story  # noqa: E402
from t32log.system import read_system  # noqa: E402

# Each log that is kept, with its example, the mode that all roots of that get in place of their own, and the words of the run.
LOGS = {
    "hi-loss": ("hi", None, ["crash:0@bus:1"]),
    "ring-loss": ("ring", None, ["crash:1@bus:10"]),
    "often-loss": ("often", None, ["crash:2@bus:51"]),
    "server-loss": ("server", None, ["crash:0@bus:8"]),
    "signals-loss": ("signals", None, ["crash:0@bus:8"]),
    "squares-loss": ("squares", None, ["crash:0@bus:60"]),
    "conversation": ("conversation", None, []),
    "ring-half": ("ring", "half", ["crash:1@bus:10", "return:1@bus:20", "crash:2@bus:36"]),
    "ring-full": ("ring", "full", ["crash:1@bus:10", "crash:2@bus:24"]),
    "server-full": ("server", "full", ["crash:0@bus:8", "crash:1@bus:20"]),
}


def data(name: str) -> str:
    return os.path.join(TESTS, "data", name)


def read(path: str) -> bytes:
    with open(path, "rb") as file:
        return file.read()


def log(name: str) -> bytes:
    return read(data(name + ".out"))


def system_text(name: str) -> bytes:
    """The system text of a log."""
    example, mode, _ = LOGS[name]
    text = read(os.path.join(TOP, "examples", example + ".t32"))
    return text.replace(b" quarter ", b" " + mode.encode() + b" ") if mode else text


def made_log(count: int) -> bytes:
    """A log of so many entries, as no program made it: sixteen processes in four clusters write to each other in a ring and to a terminal,
    synchronise now and then, and cluster 1 is lost in the middle."""
    pids = [cluster + 16 * serial for serial in (1, 2, 3, 4) for cluster in range(4)]
    home = {pid: pid % 16 for pid in pids}
    steps = dict.fromkeys(pids, 0)
    lines, sent, since, withheld = [], 0, dict.fromkeys(pids, 0), 0
    while len(lines) < count - 1:
        turn, pid = len(lines), pids[sent % len(pids)]
        steps[pid] += 7
        if turn >= count // 2 and 1 in home.values():
            moved = [each for each in pids if home[each] == 1]
            withheld = sum(since[each] for each in moved)
            home |= dict.fromkeys(moved, 2)
            lines += ["bus crash 1 place"] + [what for each in moved for what in (f"2 fetch {each} 0", f"0 pageis {each} 0")]
        elif sent % 97 == 96 and since[pid]:
            lines += [f"{home[pid]} page {pid} at {steps[pid]} 0", f"{home[pid]} sync {pid} at {steps[pid]} plain"]
            since[pid] = 0
        else:
            ring = pids[(sent + 1) % len(pids)]
            letter = "0 tty 0 2e" if sent % 5 == 4 else f"1 to {ring} end 2 {sent:08x}"
            lines.append(f"{home[pid]} mail {pid} at {steps[pid]} out {letter}")
            sent, since[pid] = sent + 1, since[pid] + 1
    lines = lines[:count - 1] + ["bus done"]
    place, shown, syncs = lines.index("bus crash 1 place"), sum(" tty " in line for line in lines), sum(" sync " in line for line in lines)
    report = [f"tty 0 {shown}", "." * shown] + [f"pid {pid} waiting" for pid in pids]
    report += [f"crash 1 at {place}", f"bus {len(lines)} syncs {syncs} withheld {withheld}", "schedule 0", f"log {len(lines)}"]
    return "".join(line + "\n" for line in report + [f"{at} {line}" for at, line in enumerate(lines)]).encode()


def story(name: str, with_system: bool = True, text: bytes | None = None) -> Story:
    """What a log tells, or another text in its place."""
    output = read_output(log(name) if text is None else text)
    check_report(output)
    return Story(output, read_system(system_text(name)) if with_system else None)


def call(tool: str, words: list[str], text: bytes, system: bytes | None = None) -> subprocess.CompletedProcess:
    """Calls a tool, with a system text in a file where there is one."""
    with tempfile.NamedTemporaryFile(suffix=".t32") as file:
        if system is not None:
            file.write(system)
            file.flush()
            words = words + ["--system", file.name]
        return subprocess.run([os.path.join(TOP, "tools", tool), *words], input=text, capture_output=True, timeout=600, check=False)
