"""The shell: reads commands, sends their lines and prints the replies in words."""

from __future__ import annotations

import cmd
import json
import os
import re
import time
from collections.abc import Callable, Iterable, Sequence

from ..base.faults import printable
from ..base.protocol import OPENACCESS, ORIENTS, VERBS, ProtocolError, is_accepted
from ..base.wording import number
from ..client import verbs
from ..client.blocking import Connection, Session
from ..client.endpoint import Endpoint
from ..client.refusals import BadRequest, Illegal, Refusal
from ..client.verbs import Place, Report, Request
from ..hub.status_table import status_lines
from .commands import COMMANDS, TEAM_VERBS, field_kind, help_lines
from .hints import hint_lines, nearest_places, place_hint_lines, present_places, refusal_words, repair_command
from .history import History
from .lengths import LengthUnit
from .words import MOST_VIOLATIONS, cell_lines, near_lines, report_lines, result_lines

# The greatest padding (docs/PROTOCOL.md, "Lines and fields").
_MOST_PADDING = 16
# How many lines or cells are shown if a command does not say it.
_SHOWN = 10
# Commands that are not part of the history.
_UNRECORDED = ("help", "history")


class Shell(cmd.Cmd):
    """Commands over one connection, with replies in words."""

    identchars = cmd.Cmd.identchars + "-"

    def __init__(self, endpoint: Endpoint, where: Sequence[str] = ("SOCKET",)) -> None:
        """Makes the shell of a connection; `where` are the words of the command line that name the other end."""
        super().__init__()
        self._connection: Connection = endpoint.connection
        self._teams = list(endpoint.teams)
        self._where = where
        # The team of a team's socket.
        self._only_team = endpoint.teams[0] if len(endpoint.teams) == 1 else None
        self._sessions: dict[str, Session] = {}
        self._team: str | None = None
        self._unit = LengthUnit()
        self._history = History()
        # What the present command has printed.
        self._reply: list[str] = []
        # The cells of each team, after the first completion.
        self._cells: dict[str, list[str]] = {}
        # Whether a line was refused.
        self.has_refused = False
        self._commands: dict[str, Callable[[list[str]], list[str]]] = {
            "help": lambda fields: help_lines(" ".join(fields)),
            "teams": self._teams_known,
            "team": self._use,
            "cells": self._list_cells,
            "near": self._list_near,
            "units": self._set_units,
            "history": lambda fields: self._history.lines(_count(fields, 0, "history takes N, a number of lines")),
            "savepoint": self._savepoint,
            "wait": self._wait,
            "status": self._status,
            "freeze": self._freeze,
            "thaw": self._thaw,
            "drop": self._drop,
            "state": self._state,
            "export": self._export,
        }
        self._set_prompt()

    def _set_prompt(self) -> None:
        self.prompt = self._prompt_text()

    def _prompt_text(self) -> str:
        return f"{self._team or 'lefence'}> "

    # One line.

    def onecmd(self, line: str) -> bool:
        """Executes a line; returns True if the shell is to end."""
        words = line.split()
        if not words:
            return False
        verb, fields = words[0], words[1:]
        if verb in ("quit", "bye", "exit") or line == "EOF":
            return True
        typed = f"{self._prompt_text()}{line.strip()}"
        self._reply = []
        try:
            self._print(self._answer(verb, fields, line))
        except (Refusal, ValueError, ProtocolError) as error:
            self.has_refused = True
            self._print(self._refusal_lines(verb, fields, error))
        if verb not in _UNRECORDED:
            self._history.add(typed, self._reply)
        return False

    def _answer(self, verb: str, fields: list[str], line: str) -> list[str]:
        """Executes a command; returns what it prints."""
        if verb == "raw":
            return self._raw(line)
        if verb in self._commands:
            return self._commands[verb](fields)
        if verb in TEAM_VERBS:
            return self._verb(verb, fields)
        self.has_refused = True
        return [f"no such command: {verb}; `help` lists them"]

    def _refusal_lines(self, verb: str, fields: list[str], error: Exception) -> list[str]:
        """A refusal in words, and what helps."""
        if not isinstance(error, Refusal):
            return [f"no: {error}"]
        session = self._sessions.get(self._team or "")
        if session is None:
            return [f"no: {error.words()}"]
        target = self._target(fields) if verb == "place" and isinstance(error, Illegal) else None
        repair = self._repair_command(session)
        try:
            lines = [f"no: {refusal_words(session, verb, target, error)}", *hint_lines(verb, error, repair)]
            return lines + (place_hint_lines(session, *target, self._unit, repair) if target else [])
        except (Refusal, ProtocolError):
            # (the hint is not known)
            return [f"no: {error.words()}"]

    def _repair_command(self, session: Session) -> str:
        return repair_command(self._where, session.team, names_team=self._only_team != session.team)

    def _target(self, fields: list[str]) -> tuple[str, Place]:
        """The cell and the place of a `place` that was sent."""
        cell, x, y, orient = fields
        return cell, Place(self._unit.parsed(x), self._unit.parsed(y), orient)

    def _print(self, lines: list[str]) -> None:
        self._reply += lines
        self.stdout.write("".join(f"{printable(line)}\n" for line in lines))
        self.stdout.flush()

    # Teams and their verbs.

    def _teams_known(self, fields: list[str]) -> list[str]:
        return [" ".join(self._teams) or "no team is known; `team NAME` tries one"]

    def _use(self, fields: list[str]) -> list[str]:
        if len(fields) != 1:
            raise ValueError("team NAME")
        team, lines = fields[0], []
        if team not in self._sessions:
            session = self._connection.session(team).open()
            self._sessions[team] = session
            lines = [f"session {session.number} of team {team}, revision {session.first_revision}"]
        if team not in self._teams:
            self._teams.append(team)
        self._team = team
        self._set_prompt()
        return lines

    def _session(self) -> Session:
        """The session in use; that of the only team is opened."""
        if self._team is None and len(self._teams) == 1:
            self._print(self._use(self._teams))
        if self._team is None:
            raise ValueError("choose a team first: `team NAME`")
        return self._sessions[self._team]

    def _verb(self, verb: str, fields: list[str]) -> list[str]:
        wanted = VERBS[verb].fields
        if len(fields) != len(wanted):
            raise ValueError(f"{verb} takes {' '.join(wanted) or 'nothing'}")
        session = self._session()
        method = getattr(session, "def_text" if verb == "def" else verb)
        values = [self._value(kind, field) for kind, field in zip(wanted, fields)]
        result = method(*values)
        if verb == "close":
            self._sessions.pop(session.team)
            self._team = None
            self._set_prompt()
        if isinstance(result, Report):
            return self._report(session, result)
        return result_lines(verb, fields, result, self._unit)

    def _value(self, kind: str, field: str) -> str | int:
        """Converts a field for the client library. Raises ValueError if no request can have it."""
        if kind == "O" and field not in ORIENTS:
            hint = f", which calls it {OPENACCESS[field]}" if field in OPENACCESS else ""
            raise ValueError(f"{field} is not an orientation of DEF{hint}: {' '.join(ORIENTS)}")
        if kind in ("X", "Y"):
            return self._unit.parsed(field)
        if kind != "P":
            return field
        if not re.fullmatch(r"-?[0-9]+", field, re.ASCII):
            raise ValueError(f"{field} is not a whole number")
        if not 0 <= int(field) <= _MOST_PADDING:
            raise ValueError(f"pad takes 0 to {_MOST_PADDING} core sites")
        return int(field)

    def _report(self, session: Session, report: Report) -> list[str]:
        """The report with the places of the first violations, and the nearest legal ones."""
        cells = [violation.cell for violation in report.violations[:MOST_VIOLATIONS]]
        places = present_places(session, cells)
        targets = [(cell, place) for cell, place in zip(cells, places) if place is not None]
        found = dict(zip([cell for cell, _ in targets], nearest_places(session, targets)))
        lines = report_lines(report, places, [found.get(cell) for cell in cells], self._unit)
        if None in found.values():
            lines.append(f"for cells without a legal place, this also moves others: {self._repair_command(session)}")
        return lines

    def _list_cells(self, fields: list[str]) -> list[str]:
        if len(fields) > 1:
            raise ValueError("cells takes at most a PATTERN")
        cells = self._session().cells()
        return cell_lines(cells, fields[0] if fields else None, self._unit)

    def _list_near(self, fields: list[str]) -> list[str]:
        if not fields:
            raise ValueError("near takes CELL, and N if it should not be 10")
        most = _count(fields, 1, "near takes CELL and N, a number of cells")
        return near_lines(self._session().cells(), fields[0], most, self._unit)

    def _set_units(self, fields: list[str]) -> list[str]:
        match fields:
            case []:
                pass
            case ["database"]:
                self._unit = LengthUnit()
            case ["microns"]:
                self._unit = LengthUnit(self._per_micron())
            case _:
                raise ValueError("units takes `microns` or `database`")
        per_micron = self._unit.per_micron
        return [f"lengths are {self._unit.name}" + (f" of {per_micron} database units" if per_micron else "")]

    def _per_micron(self) -> int:
        """The database units per micron. Only a hub is asked for the number alone."""
        try:
            return self._connection.ask(verbs.units())
        except BadRequest:
            return verbs.units_in(self._session().def_text())

    def _wait(self, fields: list[str]) -> list[str]:
        if len(fields) != 1 or not fields[0].isdecimal():
            raise ValueError("wait takes REV")
        try:
            return [f"revision {self._session().wait(int(fields[0]))}"]
        except BadRequest:
            raise ValueError("wait is for a team's query socket") from None

    def _raw(self, line: str) -> list[str]:
        words = line.split(maxsplit=1)[1:] or [""]
        reply = self._connection.ask_line(os.fsencode(words[0]))
        self.has_refused = self.has_refused or not is_accepted(reply[: reply.find(b"\n") + 1])
        return reply.decode("ascii", "backslashreplace").splitlines()

    # Lines of a hub, and of its operator.

    def _ask(self, verb: str, *fields: str, who: str = "the operator's socket") -> list[str]:
        """Sends a line that a hub itself answers; returns the words of its reply after `ok`."""
        line = " ".join([verb, *map(verbs.name, fields)]).encode()
        try:
            return self._connection.ask(Request(line, lambda words, text: words))
        except BadRequest:
            raise ValueError(f"{verb} is for {who}") from None

    def _savepoint(self, fields: list[str]) -> list[str]:
        known = self._team or self._only_team
        match fields:
            case [name] if known is None:
                raise ValueError("choose a team first: `team NAME`, or `savepoint TEAM NAME`")
            case [name]:
                team = known or ""
            case [team, name]:
                pass
            case _:
                raise ValueError("savepoint takes NAME, or TEAM NAME")
        if name.isdecimal():
            raise ValueError("a savepoint's name must not be a number")
        self._ask("savepoint", team, name, who="a hub's sockets")
        return [f"{name} names the present places of team {team}"]

    def _status(self, fields: list[str]) -> list[str]:
        _refuse_fields("status", fields)
        return status_lines(json.loads(" ".join(self._ask("status"))), time.time())

    def _freeze(self, fields: list[str]) -> list[str]:
        team = _one("freeze takes TEAM", fields)
        self._ask("freeze", team)
        return [f"team {team} is frozen: changes by its own clients are refused"]

    def _thaw(self, fields: list[str]) -> list[str]:
        team = _one("thaw takes TEAM", fields)
        self._ask("thaw", team)
        return [f"team {team} is not frozen"]

    def _drop(self, fields: list[str]) -> list[str]:
        pid = _one("drop takes PID, the number of a process", fields)
        if not pid.isdecimal():
            raise ValueError("drop takes PID, the number of a process")
        [count] = self._ask("drop", pid)
        return [f"{number(int(count), 'connection')} of process {pid} ended"]

    def _state(self, fields: list[str]) -> list[str]:
        _refuse_fields("state", fields)
        self._ask("state")
        return ["the hub saves a state if there are changes since the last one"]

    def _export(self, fields: list[str]) -> list[str]:
        path = _one("export takes PATH", fields)
        self._ask("export", path)
        if not os.path.isabs(path):
            # (it begins in the hub's folder, wherever the shell runs)
            path = os.path.join(json.loads(" ".join(self._ask("status"))).get("folder", ""), path)
        return [f"written: {path}"]

    # Help and completion.

    def completenames(self, text: str, *ignored: object) -> list[str]:
        """Completes commands."""
        return _matches(text, COMMANDS)

    def completedefault(
        self, text: str = "", line: str = "", begidx: int = 0, endidx: int = 0, *ignored: object
    ) -> list[str]:
        """Completes the fields of commands: the team's cells, orientations, teams, units and commands."""
        command, *before = line[:begidx].split()
        match field_kind(command, len(before)):
            case "O":
                return _matches(text, ORIENTS)
            case "CELL":
                return _matches(text, self._known_cells())
            case "TEAM":
                return _matches(text, self._teams)
            case "UNIT":
                return _matches(text, ("microns", "database"))
            case "COMMAND":
                return self.completenames(text)
        return []

    def complete_help(self, *words: object) -> list[str]:
        """Completes the field of `help`; the base class has another completion for it."""
        return self.completenames(str(words[0]))

    def _known_cells(self) -> list[str]:
        """The team's cells, from its DEF text, which is read once."""
        try:
            team = self._session().team
            if team not in self._cells:
                self._cells[team] = [cell.name for cell in self._session().cells()]
            return self._cells[team]
        except (Refusal, ValueError, ProtocolError, OSError):
            return []


def _matches(text: str, words: Iterable[str]) -> list[str]:
    """The words with this beginning. A single match gets a space after it."""
    found = [word for word in words if word.startswith(text)]
    return [f"{found[0]} "] if len(found) == 1 else found


def _count(fields: list[str], at: int, usage: str) -> int:
    """The number in a field that may be missing. Raises ValueError with the usage if there is another word."""
    if len(fields) <= at:
        return _SHOWN
    if len(fields) > at + 1 or not fields[at].isdecimal():
        raise ValueError(usage)
    return int(fields[at])


def _one(usage: str, fields: list[str]) -> str:
    """The only field. Raises ValueError with the usage if there is another number of them."""
    if len(fields) != 1:
        raise ValueError(usage)
    return fields[0]


def _refuse_fields(command: str, fields: list[str]) -> None:
    if fields:
        raise ValueError(f"{command} takes nothing")
