"""Errors that end a tool, its exit statuses, its command line and its log."""

from __future__ import annotations

import argparse
import os
import signal
import sys
import threading
import traceback
from collections.abc import Callable
from pathlib import Path
from types import FrameType

from .. import __version__

# Exit statuses, as of the program: done; input refused; wrong command line; a file, a socket, the disk or the program
# failed.
DONE, REFUSED, USAGE, FAILED = 0, 1, 2, 3


class Fault(Exception):
    """Ends a tool with a status and a message."""

    def __init__(self, status: int, text: str) -> None:
        super().__init__(text)
        self.status = status


# The paths of input files as they were given, by the paths of their plain copies (`input_files`).
_GIVEN: dict[str, str] = {}


def show_as(copy: str, given: str) -> None:
    """Has messages show a file's copy as the file that was given."""
    _GIVEN[copy] = given


def as_given(text: str) -> str:
    """Returns a message that shows the files that were given in place of their copies."""
    for copy, given in _GIVEN.items():
        text = text.replace(copy, given)
    return text


class Parser(argparse.ArgumentParser):
    """The command line of a tool, with an example at the end of its help."""

    def __init__(self, tool: str, what: str, example: str) -> None:
        epilog = "example:\n" + "\n".join(f"  {line}" for line in example.splitlines())
        super().__init__(
            prog=tool, description=what, epilog=epilog, formatter_class=argparse.RawDescriptionHelpFormatter
        )
        self.add_argument(
            "--version", action="version", version=f"{tool} {__version__}", help="print the version and end"
        )

    def add_design(self) -> None:
        """Adds the arguments of a design: its DEF file, then its LEF files."""
        self.add_argument("design", metavar="DEF", type=Path, help="the design")
        self.add_argument(
            "libraries", metavar="LEF", type=Path, nargs="+", help="its LEF files, in the program's order"
        )

    def add_program(self) -> None:
        """Adds the option for another program."""
        text = "the lefence program (default: of the variable LEFENCE, of the search path, of this repository)"
        self.add_argument("--program", metavar="PATH", help=text)


def printable(text: str) -> str:
    """Escapes all characters that are not printable, since they may control a terminal."""
    if text.isprintable():
        return text
    return "".join(
        sign if sign.isprintable() or sign in "\n\t" else sign.encode("unicode_escape").decode() for sign in text
    )


def reason_of(error: Exception) -> str:
    """Returns the message of an exception; of an OSError the file's name and the reason, without its number."""
    if not isinstance(error, OSError) or error.strerror is None:
        return str(error)
    return error.strerror if error.filename is None else f"{error.filename}: {error.strerror}"


def log(tool: str, text: str) -> None:
    """Prints a line on standard error, with unprintable characters escaped. Errors of the write are ignored."""
    try:
        print(f"{tool}: {printable(as_given(text))}", file=sys.stderr, flush=True)
    except OSError:
        pass


def _end(number: int, frame: FrameType | None) -> None:
    sys.exit(128 + number)


def run_tool(tool: str, work: Callable[[], int]) -> int:
    """Runs a tool; returns its exit status. A Fault is printed on standard error; SIGTERM cleans up before the end."""
    if threading.current_thread() is threading.main_thread() and signal.getsignal(signal.SIGTERM) == signal.SIG_DFL:
        signal.signal(signal.SIGTERM, _end)
    try:
        status = work()
        sys.stdout.flush()
        return status
    except Fault as fault:
        log(tool, str(fault))
        return fault.status
    except BrokenPipeError:
        # The reader of the output is gone. Discard the buffered rest, so that it does not fail again at exit.
        os.dup2(os.open(os.devnull, os.O_WRONLY), 1)
        return FAILED
    except OSError as error:
        log(tool, reason_of(error))
        return FAILED
    except KeyboardInterrupt:
        return 130
    except MemoryError:
        log(tool, "out of memory")
        return FAILED
    except Exception:
        # An error of the tool itself must not look like an error of its input.
        log(tool, traceback.format_exc().rstrip())
        return FAILED
