"""The options of lefence-hub that print the status of a running hub: as tables, as JSON, or for Prometheus."""

from __future__ import annotations

import argparse
import json
import sys
import time
from collections.abc import Callable
from dataclasses import dataclass
from pathlib import Path
from typing import Any

from ..base.faults import DONE
from .metrics import prometheus
from .status import read_status
from .status_table import status_lines

# Seconds between two turns of --watch.
TURN = 2.0
# Moves the cursor of a terminal to the upper left corner, and clears what is below it.
_CLEAR = "\x1b[H\x1b[J"


def add_status_options(made: argparse.ArgumentParser) -> None:
    """Adds the options to a command line."""
    folder = made.add_mutually_exclusive_group()
    text = "print the status of the hub with its sockets in DIR and end: tables on a terminal, else a line of JSON"
    folder.add_argument("--status", metavar="DIR", type=Path, help=text)
    folder.add_argument("--metrics", metavar="DIR", type=Path, help="print the same for Prometheus and end")
    made.add_argument("--json", action="store_true", help="with --status: print JSON on a terminal too")
    made.add_argument("--watch", action="store_true", help="with --status: print it again every two seconds")


@dataclass(frozen=True)
class StatusView:
    """What is printed of the hub with its sockets in a folder: in which form, and whether again and again."""

    folder: Path
    form: Callable[[dict[str, Any]], str]
    is_repeated: bool = False
    # Whether the terminal is cleared before each turn.
    clears: bool = False

    def show(self, pause: Callable[[float], None] = time.sleep) -> int:
        """Prints the status, with --watch until Ctrl-C; returns the exit status. Raises a Fault if no hub answers."""
        try:
            self._print()
            while self.is_repeated:
                pause(TURN)
                self._print()
        except KeyboardInterrupt:
            if not self.is_repeated:
                raise
        return DONE

    def _print(self) -> None:
        text = self.form(read_status(self.folder))
        sys.stdout.write(_CLEAR + text if self.clears else text)
        sys.stdout.flush()


def requested_view(made: argparse.ArgumentParser, words: list[str]) -> StatusView | None:
    """Returns what the words of a command line request; None if they do not ask for a status. If they are wrong, it
    ends the process with the usage of `made`.
    """
    options, others = _options_in(made, words)
    if options.status is None and (options.json or options.watch):
        made.error("--json and --watch go with --status")
    if options.status is None and options.metrics is None:
        return None
    if others:
        made.error(f"--status and --metrics print and end: {others[0]} does not go with them")
    if options.status is None:
        assert options.metrics is not None
        return StatusView(options.metrics, prometheus)
    is_table = sys.stdout.isatty() and not options.json
    return StatusView(options.status, table_text if is_table else json_text, options.watch, options.watch and is_table)


def _options_in(made: argparse.ArgumentParser, words: list[str]) -> tuple[argparse.Namespace, list[str]]:
    """Parses these options alone; returns them and the other words. They need none of the hub's required options."""
    alone = argparse.ArgumentParser(prog=made.prog, usage=made.format_usage()[7:], add_help=False, allow_abbrev=False)
    add_status_options(alone)
    return alone.parse_known_args(words)


def json_text(status: dict[str, Any]) -> str:
    """Formats a status as a line of JSON."""
    return json.dumps(status) + "\n"


def table_text(status: dict[str, Any]) -> str:
    """Formats a status as tables."""
    return "".join(f"{line}\n" for line in status_lines(status, time.time()))
