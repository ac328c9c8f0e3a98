"""lefence-shell: an interactive session with completion, history and replies in words."""

from __future__ import annotations

import argparse
import io
import os
import sys
from pathlib import Path

from ..base.faults import DONE, FAILED, REFUSED, USAGE, Fault, Parser, reason_of, run_tool
from ..base.input_files import plain_file
from ..client.blocking import Connection
from ..client.endpoint import Endpoint, connect_to, start_program
from .shell import Shell

TOOL = "lefence-shell"


def _history() -> Path:
    home = os.environ.get("XDG_STATE_HOME") or os.path.join(os.path.expanduser("~"), ".local", "state")
    return Path(home) / "lefence-shell-history"


def _interact(shell: Shell) -> None:
    """Executes the lines of standard input; a terminal gets completion and history."""
    if not sys.stdin.isatty():
        shell.prompt = ""
        shell.use_rawinput = False
        for line in sys.stdin:
            if shell.onecmd(line.rstrip("\r\n")):
                return
        return
    import readline

    history = _history()
    try:
        readline.set_completer_delims(" \t\n")
        if history.exists():
            readline.read_history_file(history)
    except OSError:
        pass
    try:
        while True:
            try:
                shell.cmdloop()
                return
            except KeyboardInterrupt:
                print()
    finally:
        try:
            history.parent.mkdir(parents=True, exist_ok=True)
            readline.write_history_file(history)
        except OSError:
            pass


def _relay(connection: Connection) -> bool:
    """Sends each line of standard input and writes its reply, until either side ends. True if one was refused."""
    has_refused = False
    for line in sys.stdin.buffer:
        reply = connection.ask_line(line.removesuffix(b"\n"))
        has_refused = has_refused or reply.startswith(b"no ")
        sys.stdout.buffer.write(reply)
        sys.stdout.buffer.flush()
    return has_refused


def parser() -> Parser:
    made = Parser(
        TOOL,
        "An interactive session: over a hub's socket, over TCP to `lefence serve`, or with a program of its own.",
        f"{TOOL} /run/lefence/A.sock\n{TOOL} localhost:5800\n{TOOL} chip.def tech.lef cells.lef",
    )
    made.add_argument("where", metavar="WHERE", nargs="+", help="a socket, HOST:PORT, or DEF LEF...")
    made.add_argument("--team", metavar="NAME", help="open a session of this team first")
    text = (
        "send the lines of standard input and write the replies, both unchanged: for programs that cannot use a socket"
    )
    made.add_argument("--raw", action="store_true", help=text)
    made.add_argument("--strict", action="store_true", help="end with status 1 if a line was refused")
    made.add_program()
    return made


def _endpoint_of(options: argparse.Namespace) -> Endpoint:
    """Connects as the command line requests."""
    first, *more = options.where
    if more:
        return start_program(options.program, [plain_file(Path(word)) for word in options.where])
    if os.path.isfile(first):
        raise Fault(
            USAGE, f"{first} is not a socket; for a design, give its LEF files too: {TOOL} chip.def tech.lef .."
        )
    return connect_to(first)


def main() -> int:
    options = parser().parse_args()
    for stream in (sys.stdin, sys.stdout):
        # Any bytes pass unchanged.
        if isinstance(stream, io.TextIOWrapper):
            stream.reconfigure(errors="surrogateescape")

    def work() -> int:
        endpoint = _endpoint_of(options)
        shell = Shell(endpoint, options.where)
        try:
            if options.raw:
                shell.has_refused = _relay(endpoint.connection)
            elif options.team and not _begin(shell, options.team):
                return REFUSED
            else:
                _interact(shell)
        except OSError as error:
            if isinstance(error, BrokenPipeError):
                raise
            raise Fault(FAILED, reason_of(error)) from None
        finally:
            endpoint.close()
        return REFUSED if options.strict and shell.has_refused else DONE

    return run_tool(TOOL, work)


def _begin(shell: Shell, team: str) -> bool:
    shell.onecmd(f"team {team}")
    return shell.prompt != "lefence> "
