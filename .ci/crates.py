"""The crates of this repository, and work on them side by side, by the library of the toolchain's command rt.

It remembers the checksum of each crate's sources, which rt makes anew for each way down to a crate: a check of what did not
change takes seconds in place of minutes.
"""
import importlib.machinery
import importlib.util
import os
import shutil
import sys
import tempfile
import threading
import time
from typing import Any, Callable, Iterable, List, Optional

TOP = os.path.dirname(os.path.dirname(os.path.abspath(__file__)))


class NoToolchain(Exception):
    """There is no toolchain to work with; the text says what is missing."""


def load(path: str, name: str) -> Any:
    """A script without a package, as a module with this name: the command rt or its library."""
    loader = importlib.machinery.SourceFileLoader(name, path)
    found = importlib.util.module_from_spec(importlib.util.spec_from_loader(name, loader))
    sys.modules[name] = found
    loader.exec_module(found)
    return found


def command() -> Any:
    """The command rt itself, for this repository, which becomes the current folder: it does nothing when it is loaded."""
    rt = shutil.which("rt")
    if rt is None:
        raise NoToolchain("the toolchain's command rt is not on the PATH")
    # The command would else leave a compiled copy of itself in the toolchain's folder.
    sys.dont_write_bytecode = True
    found = load(os.path.realpath(rt), "rt_command")
    os.chdir(TOP)
    found.rtlib.guarded()
    found.Crate.allowed = found.handles_of(TOP)
    return found


def remember(rtlib: Any) -> None:
    """Has rt make the checksum of a crate's sources once."""
    make, made = rtlib.Crate.stamp, {}

    def stamp(crate: Any) -> str:
        if crate.folder not in made:
            made[crate.folder] = make(crate)
        return made[crate.folder]

    rtlib.Crate.stamp = stamp


def toolchain() -> Any:
    """The library of the command rt, for this repository, which becomes the current folder."""
    rt = shutil.which("rt")
    if rt is None:
        raise NoToolchain("the toolchain's command rt is not on the PATH")
    path = os.path.join(os.path.dirname(os.path.realpath(rt)), "rtlib.py")
    if not os.path.isfile(path):
        raise NoToolchain(f"the toolchain has no library beside its command rt: {path} is not there")
    # The library would else leave a compiled copy of itself in the toolchain's folder.
    sys.dont_write_bytecode = True
    rtlib = load(path, "rtlib")
    os.chdir(TOP)
    rtlib.guarded()
    remember(rtlib)
    return rtlib


def all_crates(rtlib: Any) -> dict:
    """All crates by their names, each after those that it stands on."""
    return {crate.name: crate for crate in rtlib.crates_below(TOP)}


def with_below(crates: Iterable[Any]) -> set:
    """These crates and all that they stand on."""
    return {it for crate in crates for it in [*crate.below(), crate]}


def why_not_written(folder: str) -> Optional[str]:
    """Why no file can be made in a folder, which is made where it is missing; None where one can."""
    try:
        os.makedirs(folder, exist_ok=True)
        with tempfile.TemporaryFile(dir=folder):
            return None
    except OSError as error:
        return f"{os.path.relpath(folder, TOP)} cannot be written: {error.strerror}"


def prove(crate: Any, jobs: int, after: Callable[[Any, List[str]], int] = lambda crate, flags: 0) -> int:
    """Proves a crate by so many processors, and then does what is to come after: the status. What is said goes to its prove.log."""
    try:
        os.makedirs(crate.folder + "/out", exist_ok=True)
        with open(crate.folder + "/out/prove.log", "w+", errors="replace", encoding="utf-8") as crate.out:
            flags = ["--jobs", str(jobs)]
            status = crate.build_rlib(flags, anew=False) if crate.makes_rlib() else crate.check(flags)
            return status or after(crate, flags)
    except OSError as error:
        print(f"{crate.name}: {error.filename or 'the log'}: {error.strerror}", file=sys.stderr)
        return 1
    except SystemExit as stopped:
        return stopped.code if isinstance(stopped.code, int) and stopped.code else 1


def side_by_side(crates: Iterable[Any], work: Callable[[Any, int], int], lanes: int, told: Any) -> List[str]:
    """Does the work on crates by so many processors, each once those below it are done: the names of those that failed.

    What is told hears of each crate by `begun(name)` and `ended(name, status, seconds)`.
    """
    done, failed, running, left = set(), set(), {}, list(crates)
    turn = threading.Condition()

    def one(crate: Any, jobs: int) -> None:
        begin = time.monotonic()
        status = work(crate, jobs)
        with turn:
            del running[crate]
            (failed if status else done).add(crate)
            told.ended(crate.name, status, time.monotonic() - begin)
            turn.notify_all()

    with turn:
        while left or running:
            failed.update(crate for crate in left if failed & set(crate.below()))
            left = [crate for crate in left if crate not in failed]
            ready = [crate for crate in left if done >= set(crate.below())]
            for at, crate in enumerate(ready):
                free = lanes - sum(running.values())
                if free > 0:
                    running[crate] = jobs = max(1, free // (len(ready) - at))
                    left.remove(crate)
                    told.begun(crate.name)
                    # A daemon, so that a build which is broken off does not wait for it.
                    threading.Thread(target=one, args=(crate, jobs), daemon=True).start()
            if running:
                turn.wait()
    return sorted(crate.name for crate in failed)
