"""Connections of the tools: to a socket, to HOST:PORT, or to a program that the tool starts over a design."""

from __future__ import annotations

import os
import re
import socket
import subprocess
from dataclasses import dataclass
from pathlib import Path

from ..base.description import add_team
from ..base.faults import FAILED, REFUSED, USAGE, Fault
from ..base.program import Program, Run, find_program
from ..base.protocol import GROUND, team_of_query_socket, team_of_socket
from .blocking import Connection, connect

_PORT = re.compile(r"([^/]+):(\d{1,5})")


@dataclass
class Endpoint:
    """A connection, the teams that it is known to serve, and the tool's own program, if it started one."""

    connection: Connection
    teams: list[str]
    process: subprocess.Popen[bytes] | None = None

    def close(self) -> None:
        """Ends the connection and the program."""
        self.connection.close()
        if self.process is not None:
            self.process.wait()


def connect_to(where: str) -> Endpoint:
    """Connects to a Unix socket or to HOST:PORT. Raises a Fault if nobody listens there."""
    found = _PORT.fullmatch(where)
    try:
        if found and not Path(where).exists():
            return Endpoint(connect(found[1], int(found[2])), [])
        return Endpoint(connect(where), _teams_at(Path(where)))
    except ValueError as error:
        raise Fault(USAGE, f"{where}: {error}") from None
    except OSError as error:
        reason = "it is not a socket" if os.path.isfile(where) else error.strerror
        raise Fault(FAILED, f"{where}: {reason or error}") from None


def one_team(endpoint: Endpoint, teams: list[str]) -> str:
    """Returns the requested team, else the socket's. Raises a Fault if that is not one team."""
    named = teams or endpoint.teams
    if len(named) != 1:
        raise Fault(USAGE, "exactly one --team is needed")
    return named[0]


def _teams_at(path: Path) -> list[str]:
    """Lists the teams of a hub's socket by file names: one for a team's socket, all for the operator's."""
    if path.name != "operator.sock":
        team = team_of_socket(path.name) or team_of_query_socket(path.name)
        return [team] if team else []
    return sorted(team for each in path.parent.iterdir() if (team := team_of_socket(each.name)))


def start_program(given: str | None, paths: list[Path]) -> Endpoint:
    """Starts a program over a design and connects to it. Raises a Fault if it refuses the design."""
    program = Program(find_program(given), paths)
    near, far = socket.socketpair()
    with far:
        process = program.replay_on(far)
    connection = Connection(near)
    try:
        # (the two programs load the design at the same time)
        with program.describe() as description:
            _wait_loaded(connection, process)
            return Endpoint(connection, _described_teams(description, program.path), process)
    except BaseException:
        # The program ends with its connection, if it has not ended yet. Ctrl-C does not wait for it.
        connection.close()
        raise


def _wait_loaded(connection: Connection, process: subprocess.Popen[bytes]) -> None:
    try:
        connection.ask_line(b"")
    except OSError:
        status = process.wait()
        raise Fault(REFUSED if status == 1 else FAILED, "the program does not start; see its message above") from None


def _described_teams(description: Run, path: str) -> list[str]:
    """Reads the teams of a description, up to its first cell."""
    teams: list[str] = []
    try:
        while all(add_team(line, teams) for line in description.lines()):
            pass
    except EOFError:
        raise description.fault(f"{path} does not report the teams of the design") from None
    return [*teams, GROUND]
