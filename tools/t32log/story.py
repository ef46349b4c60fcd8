"""What a log tells beyond its lines: where each process and its backup is at each place, where a letter is saved and counted,
what a loss moves, what is withheld then, and until when a process waits for its pages and rolls forward."""
from dataclasses import dataclass, field

from .backups import UNTOLD, Cluster, backups_at_start
from .reading import CLUSTERS, EXITS, FROM_THE_BUS, LETTERS, SYNCS, Entry, Malformed, Output
from .system import System

BOOT = -1  # the place of what stands before the first entry
TO_PAGE_SERVERS = frozenset({"page", "sync", "take", "fetch", "pageis"})


@dataclass
class Move:
    """A process that a loss moved to its backup."""
    pid: int
    place: int  # of the loss
    origin: Cluster
    came_there: int  # the place since which it was there
    target: Cluster
    start: int  # the place from which it begins again: its last synchronisation, its birth, or BOOT
    start_steps: int
    steps: int  # those of its last deed before the loss
    withheld: list[int]  # the places of the letters and births since the start
    saved: list[int]  # the places of the letters that came since the start
    parent: int | None  # of a child without a state, which waits for its parent's fork
    is_sure: bool = True  # False: the log does not tell whether the backup was lost before
    whole: int | None = None  # the place of its last page, where the log tells that all have come
    deed: int | None = None  # that of the first thing that it does for the first time
    over: int | None = None  # that of a loss which moved it once more before that


@dataclass
class Stay:
    """A stretch of the log in which a process, or its backup, is in a cluster."""
    pid: int
    cluster: Cluster
    is_backup: bool
    first: int
    last: int | None = None
    ending: str = "end"  # exit, lost, moved, taken or end
    move: Move | None = None  # which brought it here


@dataclass
class Process:
    pid: int
    home: Cluster
    backup: Cluster
    born: int = BOOT
    parent: int | None = None
    ended: int | None = None
    has_state: bool = True
    start: int = BOOT
    start_steps: int = 0
    steps: int = 0
    deeds: list[int] = field(default_factory=list)
    came: list[int] = field(default_factory=list)
    signals: list[int] = field(default_factory=list)  # those that wait
    move: Move | None = None
    stay: Stay | None = None
    backup_stay: Stay | None = None


@dataclass(slots=True)
class Told:
    """What is told of an entry by those before it. Each cluster is a number, None or UNTOLD."""
    sender: Cluster = None
    receiver: Cluster = None
    saved: Cluster = None
    counted: Cluster = None
    arrives: bool = True
    servers: tuple[int, ...] = ()
    moves: tuple[Move, ...] = ()
    taken: int | None = None  # of a signal, the place where it is taken
    is_sure: bool = True  # of a letter or birth, whether the log tells by what it is withheld
    away: tuple[Move, ...] = ()  # of a letter or birth, the moves after which it is withheld
    again: tuple[Move, ...] = ()  # of a letter, the moves after which it is handed to its receiver again


class Story:
    """Follows a log entry by entry."""

    def __init__(self, output: Output, system: System | None = None):
        self.output = output
        self.system = system
        self.processes: dict[int, Process] = {}
        self.stays: list[Stay] = []
        self.moves: list[Move] = []
        self.told: list[Told] = []
        self.clusters: list[int] = []
        self.lost_ever: set[int] = set()
        self.lives: list[tuple[int, int, int]] = []  # (cluster, first place, last place)
        self.alive_since: dict[int, int] = {}
        self.boot()
        for entry in output.entries:
            self.told.append(self.follow(entry))
        self.close()
        self.check_withheld()

    # ---- the start and the end

    def boot(self) -> None:
        for pid, backup in sorted(backups_at_start(self.output, self.system).items()):
            self.settle(Process(pid, pid % CLUSTERS, backup), BOOT)
        self.clusters = self.named_clusters()
        for cluster in self.clusters:
            self.alive_since[cluster] = BOOT

    def named_clusters(self) -> list[int]:
        """Those of the system text; or else those up to the highest that the log tells of, two or more."""
        if self.system:
            return list(range(self.system.clusters))
        named = {1} | {stay.cluster for stay in self.stays if isinstance(stay.cluster, int)}
        named |= {cluster for entry in self.output.entries for cluster in (entry.by, entry.cluster) if cluster is not None}
        return list(range(max(named) + 1))

    def settle(self, process: Process, place: int) -> None:
        self.processes[process.pid] = process
        self.open_home(process, place, None)
        self.open_backup(process, place)

    def open_home(self, process: Process, place: int, move: Move | None) -> None:
        process.stay = Stay(process.pid, process.home, False, place, move=move)
        self.stays.append(process.stay)

    def open_backup(self, process: Process, place: int) -> None:
        if isinstance(process.backup, int):
            process.backup_stay = Stay(process.pid, process.backup, True, place)
            self.stays.append(process.backup_stay)

    @staticmethod
    def leave(stay: Stay | None, place: int, ending: str) -> None:
        if stay and stay.last is None:
            stay.last, stay.ending = place, ending

    def close(self) -> None:
        end = len(self.output.entries)
        for stay in self.stays:
            self.leave(stay, end, "end")
        for cluster, since in sorted(self.alive_since.items()):
            self.lives.append((cluster, since, end))
        for move in self.moves:
            self.check_whole(move)
        for move in self.moves:
            self.follow_fork(move)
        for move in self.moves:
            for place in move.withheld:
                self.told[place].is_sure = self.told[place].is_sure and move.is_sure
                self.told[place].away += (move,) if move.is_sure else ()
            for place in move.saved:
                self.told[place].again += (move,) if move.is_sure else ()

    def check_whole(self, move: Move) -> None:
        """Whether the last page that came to it was the last that it waited for: it has acted since, or the log has ended with `done`."""
        at_rest = bool(self.output.entries) and self.output.entries[-1].kind == "done" and move.over is None
        if move.deed is None and not at_rest:
            move.whole = None

    def follow_fork(self, move: Move) -> None:
        """A child without a state has no pages to wait for: it begins once its parent, which the same loss moved, rolls forward."""
        above = move
        while above is not None and above.parent is not None:
            above = next((m for m in self.moves if m.pid == above.parent and m.place == move.place), None)
        if above is not None and above is not move and above.whole is not None:
            move.whole = above.whole

    def check_withheld(self) -> None:
        counted = sum(len(move.withheld) for move in self.moves)
        if all(move.is_sure for move in self.moves) and counted != self.output.withheld:
            raise Malformed(self.output.lines["bus"], f"`.. withheld {counted}`, by the log below", f".. withheld {self.output.withheld}")

    # ---- an entry

    def follow(self, entry: Entry) -> Told:
        told = Told()
        if entry.kind in FROM_THE_BUS:
            if entry.kind == "crash":
                told.moves = self.lose(entry)
            elif entry.kind == "return":
                self.bring_back(entry)
            return told
        told.servers = self.servers() if entry.kind in TO_PAGE_SERVERS else ()
        if entry.kind == "standing":
            self.give_standing(entry, told)
            return told
        process = self.process_of(entry, entry.pid)
        if entry.kind == "pageis":
            return self.page_comes(entry, process, told)
        self.check_home(entry, process)
        told.sender, told.counted = process.home, process.backup
        if entry.kind == "fetch":
            return told
        self.note_deed(entry, process)
        if entry.kind in LETTERS:
            self.send(entry, process, told)
        elif entry.kind == "birth":
            process.deeds.append(entry.place)
            self.bear(entry, process)
        elif entry.kind in EXITS:
            process.ended = entry.place
            self.leave(process.stay, entry.place, "exit")
            self.leave(process.backup_stay, entry.place, "exit")
        elif entry.kind in SYNCS:
            self.synchronise(entry, process)
        elif entry.kind == "fresh":
            self.cut(entry, process)
            self.give_backup(entry, process)
        return told

    def refuse(self, entry: Entry, expected: str) -> Malformed:
        return Malformed(self.output.line_of(entry), expected, entry.line)

    def process_of(self, entry: Entry, pid: int) -> Process:
        process = self.processes.get(pid)
        if process is None:
            raise self.refuse(entry, f"a process that was there from the start or was born before, which {pid} was not")
        if process.ended is not None and entry.kind != "pageis":
            raise self.refuse(entry, f"nothing more of {pid}, which ended at place {process.ended}")
        return process

    def check_home(self, entry: Entry, process: Process) -> None:
        if process.home is not UNTOLD and process.home != entry.by:
            raise self.refuse(entry, f"cluster {process.home} as the sender, where {process.pid} is")
        if entry.by not in self.alive_since:
            raise self.refuse(entry, f"nothing of cluster {entry.by}, which is lost")

    def note_deed(self, entry: Entry, process: Process) -> None:
        """Its steps only rise, and by the first thing that it does after a move it has caught up."""
        if entry.at < process.steps:
            raise self.refuse(entry, f"{process.steps} steps of {process.pid} or more")
        process.steps = entry.at
        if process.move and process.move.deed is None:
            process.move.deed = entry.place

    # ---- letters, births, synchronisations

    def send(self, entry: Entry, process: Process, told: Told) -> None:
        process.deeds.append(entry.place)
        if entry.to is None:
            return
        receiver = self.processes.get(entry.to)
        if receiver is None or receiver.ended is not None:
            told.arrives = False
            return
        told.receiver, told.saved = receiver.home, receiver.backup
        receiver.came.append(entry.place)
        if entry.kind == "signal":
            receiver.signals.append(entry.place)

    def bear(self, entry: Entry, parent: Process) -> None:
        if entry.child in self.processes or entry.child % CLUSTERS != entry.by:
            raise self.refuse(entry, f"a child with a pid of its own, of cluster {entry.by}")
        child = Process(entry.child, parent.home, parent.backup, entry.place, parent.pid, has_state=False, start=entry.place)
        self.settle(child, entry.place)

    def synchronise(self, entry: Entry, process: Process) -> None:
        if entry.kind == "take":
            if not process.signals or self.output.entries[process.signals[0]].signal != entry.signal:
                raise self.refuse(entry, f"the first signal that waits for {process.pid}")
            self.told[process.signals.pop(0)].taken = entry.place
        self.cut(entry, process)

    @staticmethod
    def cut(entry: Entry, process: Process) -> None:
        """From here it begins again."""
        process.has_state = True
        process.start, process.start_steps = entry.place, entry.at
        process.deeds, process.came = [], []

    # ---- pages

    def servers(self) -> tuple[int, ...]:
        """The page servers that were never lost."""
        return tuple(c for c in self.system.pager if c not in self.lost_ever) if self.system else ()

    def page_comes(self, entry: Entry, process: Process, told: Told) -> Told:
        if entry.by not in self.alive_since or (self.system and entry.by not in told.servers[:1]):
            raise self.refuse(entry, "the first page server that was never lost")
        told.sender, told.receiver = entry.by, process.home
        if process.move and process.move.deed is None:
            process.move.whole = entry.place
        return told

    # ---- losses, returns and new backups

    def lose(self, entry: Entry) -> tuple[Move, ...]:
        cluster = entry.cluster
        if cluster not in self.alive_since:
            raise self.refuse(entry, f"a cluster that lives, which {cluster} does not")
        self.lives.append((cluster, self.alive_since.pop(cluster), entry.place))
        self.lost_ever.add(cluster)
        moves = []
        for process in self.processes.values():
            if process.ended is not None:
                continue
            if process.home == cluster:
                self.leave(process.stay, entry.place, "lost")
                if process.backup is not None:
                    moves.append(self.move(entry, process))
            elif process.backup == cluster:
                self.leave(process.backup_stay, entry.place, "lost")
                process.backup = None
        self.moves += moves
        return tuple(moves)

    def move(self, entry: Entry, process: Process) -> Move:
        if process.move and process.move.deed is None:
            process.move.over = entry.place
        move = Move(process.pid, entry.place, process.home, process.stay.first, process.backup,
                    process.start, process.start_steps, process.steps, list(process.deeds), list(process.came),
                    None if process.has_state else process.parent)
        move.is_sure = process.backup != UNTOLD or len(self.lost_ever) == 1
        self.leave(process.backup_stay, entry.place, "taken")
        process.home, process.backup, process.move = process.backup, None, move
        self.open_home(process, entry.place, move)
        return move

    def bring_back(self, entry: Entry) -> None:
        if entry.cluster in self.alive_since:
            raise self.refuse(entry, f"a cluster that is lost, which {entry.cluster} is not")
        self.alive_since[entry.cluster] = entry.place

    def give_standing(self, entry: Entry, told: Told) -> None:
        for pid in entry.pids:
            process = self.process_of(entry, pid)
            self.check_home(entry, process)
            told.sender = process.home
            self.give_backup(entry, process)

    def give_backup(self, entry: Entry, process: Process) -> None:
        if isinstance(process.backup, int):
            raise self.refuse(entry, f"a process without a backup, and that of {process.pid} is in cluster {process.backup}")
        if entry.cluster == process.home or entry.cluster not in self.alive_since:
            raise self.refuse(entry, "a cluster that lives and is not the home")
        process.backup = entry.cluster
        self.open_backup(process, entry.place)
