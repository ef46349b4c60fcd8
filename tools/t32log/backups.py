"""Where the backups of the roots are at the start, as far as a log alone tells it: where a loss moves a process, its backup was."""
from .reading import CLUSTERS, Entry, Malformed, Output
from .system import System

# A cluster that neither the log nor a system text tells.
UNTOLD = "untold"
Cluster = int | str | None


class Guess:
    """Follows each process with the backup of its root as an unknown, until an entry by its new home tells which cluster that is."""

    def __init__(self):
        self.home: dict[int, Cluster | tuple[str, int]] = {}
        self.backup: dict[int, Cluster | tuple[str, int]] = {}
        self.ended: set[int] = set()
        self.told: dict[int, int] = {}

    def place(self, pid: int) -> None:
        if pid not in self.home:
            self.home[pid] = pid % CLUSTERS
            self.backup[pid] = ("root", pid)

    def value(self, cluster):
        return self.told.get(cluster[1], cluster) if isinstance(cluster, tuple) else cluster

    def is_known(self, cluster) -> bool:
        return not isinstance(self.value(cluster), tuple)

    def take(self, entry: Entry) -> None:
        for pid in entry.pids or (entry.pid,):
            if pid is not None:
                self.place(pid)
                self.sent_by(pid, entry)
        if entry.kind == "birth":
            self.home[entry.child], self.backup[entry.child] = self.home[entry.pid], self.backup[entry.pid]
        elif entry.kind in ("exit", "trap", "killed", "limit"):
            self.ended.add(entry.pid)
        elif entry.kind == "crash":
            self.lose(entry.cluster)
        elif entry.kind in ("fresh", "standing"):
            for pid in entry.pids or (entry.pid,):
                self.backup[pid] = entry.cluster

    def sent_by(self, pid: int, entry: Entry) -> None:
        """All but a page that is served comes from the home of its process."""
        if entry.kind != "pageis" and not self.is_known(self.home[pid]):
            self.told[self.home[pid][1]] = entry.by

    def lose(self, cluster: int) -> None:
        for pid in self.home:
            if pid in self.ended:
                continue
            if self.value(self.home[pid]) == cluster:
                if self.backup[pid] is not None:
                    self.home[pid], self.backup[pid] = self.backup[pid], None
            elif self.value(self.backup[pid]) == cluster:
                self.backup[pid] = None


def backups_at_start(output: Output, system: System | None) -> dict[int, Cluster]:
    """The backup of each root at the start: by the system text, or else by the log, or else UNTOLD."""
    children = {entry.child for entry in output.entries if entry.kind == "birth"}
    roots = [pid for pid in output.states if pid not in children]
    if system:
        placed = {root.pid: root.backup for root in system.roots}
        for pid in roots:
            if pid not in placed:
                raise Malformed(output.lines["pid", pid], "a process that the system text has, or that the log bears",
                                f"pid {pid} {output.states[pid]}")
        return dict(placed)
    guess = Guess()
    for pid in roots:
        guess.place(pid)
    for entry in output.entries:
        guess.take(entry)
    return {pid: guess.told.get(pid, UNTOLD) for pid in roots}
