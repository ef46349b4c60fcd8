"""How far a build is, said on standard error while it goes."""
import contextlib
import os
import sys
import threading
import time
from typing import Dict, Iterator, List

# Off a terminal: at most one line in so many seconds where things are done, and one at least.
MOST_OFTEN, AT_LEAST = 2.0, 60.0


def clock(seconds: float) -> str:
    """Seconds as 12:34, or 1:02:03 from an hour on."""
    minutes, rest = divmod(int(seconds), 60)
    hours, minutes = divmod(minutes, 60)
    return f"{hours}:{minutes:02}:{rest:02}" if hours else f"{minutes}:{rest:02}"


class Progress:
    """How many things are done of how many, the time so far, and what is under work.

    On a terminal that is one line which changes each second; else it is a line now and then. A thing that failed has a line.
    """

    def __init__(self, name: str, total: int, what: str):
        self.name, self.total, self.what = name, total, what
        self.done, self.failed = 0, []  # type: int, List[str]
        self.working: Dict[str, float] = {}
        self.begin = time.monotonic()
        # The first line comes after a second.
        self.last = self.begin + 1 - AT_LEAST
        self.told = -1
        self.is_live = sys.stderr.isatty()
        # Reentrant, since what is said may be asked for while it is held.
        self.turn = threading.Condition(threading.RLock())
        self.is_over = False

    def __enter__(self) -> "Progress":
        self.ticker = threading.Thread(target=self.tick, daemon=True)
        self.ticker.start()
        return self

    def __exit__(self, *_: object) -> None:
        with self.turn:
            self.is_over = True
            if self.is_live or self.told != self.done:
                self.say()
            if self.is_live:
                print(file=sys.stderr, flush=True)
            self.turn.notify_all()
        self.ticker.join(1)

    def line(self) -> str:
        """What is said, as it stands now."""
        now = time.monotonic()
        said = f"{self.name}: {self.done} of {self.total} {self.what}, {clock(now - self.begin)}"
        under = ", ".join(f"{name} {clock(now - since)}" for name, since in self.working.items())
        return said + (f"; under work: {under}" if under else "")

    def say(self) -> None:
        self.last, self.told = time.monotonic(), self.done
        if not self.is_live:
            print(self.line(), file=sys.stderr, flush=True)
            return
        width = os.get_terminal_size(sys.stderr.fileno()).columns or 80
        print("\r\x1b[K" + self.line()[: width - 1], end="", file=sys.stderr, flush=True)

    def tick(self) -> None:
        with self.turn:
            while not self.is_over:
                self.turn.wait(1)
                if not self.is_over and (self.is_live or time.monotonic() - self.last >= AT_LEAST):
                    self.say()

    def begun(self, name: str) -> None:
        with self.turn:
            self.working[name] = time.monotonic()

    def ended(self, name: str, status: int, _seconds: float = 0) -> None:
        with self.turn:
            self.working.pop(name, None)
            if status:
                self.failed.append(name)
                clear = "\r\x1b[K" if self.is_live else ""
                print(f"{clear}{self.name}: {name} failed", file=sys.stderr, flush=True)
            else:
                self.done += 1
                if self.is_live or time.monotonic() - self.last >= MOST_OFTEN:
                    self.say()

    @contextlib.contextmanager
    def step(self, name: str) -> Iterator[None]:
        """One thing that is done in the thread that asks for it; off a terminal each has its line as it begins."""
        self.begun(name)
        with self.turn:
            self.say()
        try:
            yield
        except Exception:
            self.ended(name, 1)
            raise
        with self.turn:
            del self.working[name]
            self.done += 1
