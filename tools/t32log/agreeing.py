"""What stands twice in an output says the same: the report above the log, and the log."""
from .reading import EXITS, SYNCS, Malformed, Output


def check_report(output: Output) -> None:
    """Raises Malformed at the line of the report that the log contradicts."""
    check_counts(output)
    check_losses(output)
    check_processes(output)
    check_terminals(output)


def check_counts(output: Output) -> None:
    entries, syncs = len(output.entries), sum(entry.kind in SYNCS for entry in output.entries)
    if output.lines["entries"] != entries or output.syncs != syncs:
        raise Malformed(output.lines["bus"], f"`bus {entries} syncs {syncs} ..`, by the log below",
                        f"bus {output.lines['entries']} syncs {output.syncs} ..")


def check_losses(output: Output) -> None:
    told = [(entry.kind, entry.cluster, entry.place) for entry in output.entries if entry.kind in ("crash", "return")]
    if told != output.losses:
        wanted = ", ".join(f"`{word} {cluster} at {place}`" for word, cluster, place in told) or "`crash none`"
        found = ", ".join(f"{word} {cluster} at {place}" for word, cluster, place in output.losses) or "crash none"
        raise Malformed(output.lines["losses"], f"{wanted}, by the log below", found)


def check_processes(output: Output) -> None:
    """The report has every process of the log, and says how it ended as the log does."""
    ends: dict[int, str] = {}
    for entry in output.entries:
        if entry.kind in EXITS:
            ends[entry.pid] = entry.kind if entry.number is None else f"{entry.kind} {entry.number}"
        for pid in (entry.pid, entry.child):
            if pid is not None and pid not in output.states:
                wanted = f"a process that a line `pid` of the report names, which {pid} is not"
                raise Malformed(output.line_of(entry), wanted, entry.line)
    for pid, state in output.states.items():
        wanted = ends.get(pid)
        if state != wanted and (wanted or state not in ("waiting", "running")):
            raise Malformed(output.lines["pid", pid], f"`pid {pid} {wanted or 'waiting'}`, by the log below", f"pid {pid} {state}")


def check_terminals(output: Output) -> None:
    sent: dict[int, list[bytes]] = {tty: [] for tty in output.ttys}
    for entry in output.entries:
        if entry.kind == "tty":
            if entry.tty not in sent:
                wanted = f"a terminal that a line `tty` of the report names, which {entry.tty} is not"
                raise Malformed(output.line_of(entry), wanted, entry.line)
            sent[entry.tty].append(entry.data)
    for tty, data in output.ttys.items():
        wanted = b"".join(sent[tty])
        if data != wanted:
            raise Malformed(output.lines["tty", tty], f"the {len(wanted)} bytes that the log below sends to terminal {tty}",
                            f"tty {tty} {len(data)}")
