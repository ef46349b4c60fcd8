"""What the tools over a printed log share: their input, their output and their statuses."""
import sys
from typing import Callable

from .agreeing import check_report
from .reading import Malformed, read_output
from .story import Story
from .system import System, read_system


class Refused(Exception):
    """The input is malformed; the text says where and why."""


def read_text(path: str) -> System:
    try:
        with open(path, "rb") as file:
            text = file.read()
    except OSError as error:
        raise Refused(f"{path}: {error.strerror}") from error
    try:
        return read_system(text)
    except Malformed as error:
        raise Refused(f"{path}: {error}") from error


def read_story(path: str | None) -> Story:
    """The run on standard input, with the system text of this path if there is one."""
    system = read_text(path) if path is not None else None
    try:
        output = read_output(sys.stdin.buffer.read())
        check_report(output)
        return Story(output, system)
    except Malformed as error:
        raise Refused(f"standard input: {error}") from error


def run_tool(name: str, tool: Callable[[], str]) -> int:
    """Runs a tool and writes what it answers. The status: 0 done, 1 refused; argparse ends with 2 itself."""
    try:
        text = tool()
    except Refused as refused:
        print(f"{name}: {refused}", file=sys.stderr)
        return 1
    try:
        sys.stdout.buffer.write(text.encode("utf-8"))
        sys.stdout.buffer.flush()
    except BrokenPipeError:
        sys.stderr.close()
    return 0
