"""A line of words for each letter of a log: who sent what to whom, and where it was saved, counted, read and withheld."""
from .backups import UNTOLD, Cluster
from .reading import LETTERS, Entry
from .story import Move, Story, Told
from .words import counted, quoted

NOT_TOLD = "not told by the log"


def what_of(entry: Entry) -> str:
    if entry.kind == "signal":
        return f"signal {entry.signal}"
    if entry.kind == "eof":
        return f"the end letter of its end {entry.out}"
    return f"{quoted(entry.data)} ({counted(len(entry.data), 'byte')}) from its end {entry.out}"


def in_cluster(cluster: Cluster) -> str:
    return f"in a cluster {NOT_TOLD}" if cluster == UNTOLD else f"in cluster {cluster}"


def whom(entry: Entry, told: Told) -> str:
    if entry.kind == "tty":
        return f"terminal {entry.tty}"
    where = f" {in_cluster(told.receiver)}" if told.arrives else ""
    return f"process {entry.to}{where}" if entry.kind == "signal" else f"end {entry.end} of process {entry.to}{where}"


def kept(verb: str, cluster: Cluster, pid: int) -> str:
    """Where a backup of this process saved or counted it."""
    if cluster is None:
        return f"{verb} nowhere, since {pid} has no backup"
    return f"{verb}: {NOT_TOLD}" if cluster == UNTOLD else f"{verb} in cluster {cluster}"


def lost_to(story: Story, entry: Entry) -> str:
    """Why it arrives nowhere."""
    receiver = story.processes.get(entry.to)
    if receiver is None or receiver.born > entry.place:
        return f"arrives nowhere, since there is no process {entry.to}"
    return f"arrives nowhere, since {entry.to} ended at place {receiver.ended}"


def after(moves: tuple[Move, ...]) -> str:
    places = [str(move.place) for move in moves]
    return ("the loss at place " if len(places) == 1 else "the losses at places ") + " and ".join(places)


def reading(entry: Entry, told: Told) -> str:
    if entry.kind == "signal":
        read = "not taken" if told.taken is None else f"taken at place {told.taken}"
    else:
        read = f"read: {NOT_TOLD}"
    return read + (f"; handed to {entry.to} again after {after(told.again)}" if told.again else "")


def sentence(story: Story, entry: Entry) -> str:
    """All that the log tells of a letter."""
    told = story.told[entry.place]
    sender = f"process {entry.pid} {in_cluster(told.sender)}"
    parts = [f"{entry.place}: {sender}, by its step {entry.at}, sent {what_of(entry)} to {whom(entry, told)}"]
    if entry.kind != "tty":
        parts += [kept("saved", told.saved, entry.to)] if told.arrives else [lost_to(story, entry)]
    parts.append(kept("counted", told.counted, entry.pid))
    if entry.kind != "tty" and told.arrives:
        parts.append(reading(entry, told))
    parts.append(withholding(told))
    return "; ".join(parts)


def withholding(told: Told) -> str:
    if told.away:
        return f"to be withheld after {after(told.away)}"
    return "not withheld" if told.is_sure else f"withheld: {NOT_TOLD}"


def sentences(story: Story) -> str:
    return "".join(sentence(story, entry) + "\n" for entry in story.output.entries if entry.kind in LETTERS)
