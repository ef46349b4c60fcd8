"""Which losses of a printed log were covered, by the lines of the log, the roots and the page servers of the system alone."""
from dataclasses import dataclass
from typing import Dict, List, Optional, Sequence, Set

from t32log.system import System


@dataclass
class Place:
    """Where a process is at home, and where its backup stands, if it has one that lives."""

    home: int
    backup: Optional[int]


class Placement:
    """Where the processes are that have not ended, and which page servers live. A server that comes back is none again."""

    def __init__(self, system: System):
        self.places: Dict[int, Place] = {root.pid: Place(root.home, root.backup) for root in system.roots}
        self.servers: Set[int] = set(system.pager)

    def follow(self, line: bytes) -> bool:
        """Takes the next line of the log in: whether it is no loss, or one that is covered."""
        _, _, what, *fields = line.split(b" ")
        if what == b"crash":
            return self.lose(int(fields[0]))
        if what == b"birth":
            parent = self.places[int(fields[0])]
            self.places[int(fields[4])] = Place(parent.home, parent.backup)
        elif what == b"exit":
            del self.places[int(fields[0])]
        elif what == b"rebackup":
            # The pids stand first, and the cluster before the last word.
            for field in fields:
                if not field.isdigit():
                    break
                self.places[int(field)].backup = int(fields[-2])
        return True

    def lose(self, cluster: int) -> bool:
        """Moves each process of a cluster to its backup: whether all had one, and a page server is left."""
        self.servers.discard(cluster)
        covered = bool(self.servers)
        for pid, place in list(self.places.items()):
            if place.home == cluster and place.backup is None:
                del self.places[pid]
                covered = False
            elif place.home == cluster:
                self.places[pid] = Place(place.backup, None)
            elif place.backup == cluster:
                place.backup = None
        return covered


def status_by(system: System, log: Sequence[bytes]) -> Optional[int]:
    """The status that a run with this log has to end with: 0 where each loss was covered, 7 where the last entry alone is one that was not.
    None where something stands behind a loss that was not covered."""
    placement = Placement(system)
    covered: List[bool] = [placement.follow(line) for line in log]
    if all(covered):
        return 0
    return 7 if covered.index(False) == len(covered) - 1 else None
