"""The status of a hub as tables for a terminal. lefence-hub prints them, and the shell of the operator."""

from __future__ import annotations

import pwd
from typing import Any

from ..base.columns import columns
from ..base.faults import printable
from ..base.wording import number

_MINUTE, _HOUR, _DAY = 60, 3600, 86400
# The columns of texts in the tables of teams and of programs.
_TEAM_TEXTS, _PROGRAM_TEXTS = (0, 4, 9), (0, 7)
# What stands for a number that is not known, and for a field that does not apply.
_NONE = "-"


def status_lines(status: dict[str, Any], now: float) -> list[str]:
    """Formats a status; `now` is the time in seconds since 1970."""
    lines = [*_summary(status, now), "", *_team_table(status, now), "", *_program_table(status)]
    return [printable(line) for line in lines]


def _summary(status: dict[str, Any], now: float) -> list[str]:
    """The lines above the tables: the hub, its journal, its states and its slow lines."""
    counts = [
        f"up {duration(status['uptime_seconds'])}",
        number(status["clients"], "client"),
        number(status["lines_total"], "line"),
        f"{size(status['unread_bytes'])} of replies unread",
    ]
    journal = [
        number(status["changes_total"], "change"),
        f"{size(status['journal_bytes'])}, and {size(status['past_bytes'])} of earlier segments and states",
        f"last change {duration(status['journal_age_seconds'])} ago" if status["journal_age_seconds"] else "",
    ]
    median, slowest = (seconds(status[f"sync_seconds_p{part}"]) for part in (50, 99))
    states = [f"{status['states_total']} saved since the start"]
    if failed := status.get("failed_state"):
        states.append(f"the last try failed {duration(now - failed['at'])} ago: {failed['reason']}")
    slow = [str(status["slow_lines_total"])]
    if status["slow_lines"]:
        slow.append(f"the last {_slow_line(status['slow_lines'][-1], now)}")
    disk = f"a write takes {median}, 99 of 100 at most {slowest}"
    rows = {"hub": counts, "journal": journal, "disk": [disk], "states": states, "slow lines": slow}
    return [f"{name}: {'; '.join(filter(None, parts))}" for name, parts in rows.items()]


def _slow_line(line: dict[str, Any], now: float) -> str:
    work = f"{seconds(line['seconds'])}, {seconds(line['work'])} in the program"
    holder = f"{_user(line['uid'])} pid {line['pid']}"
    return f"{duration(now - line['at'])} ago: {line['verb']} of {line['team']} by {holder}, {work}"


def _team_table(status: dict[str, Any], now: float) -> list[str]:
    cells = _cells_by_team(status)
    numbers = ["clients", "lines", "work (s)", "reply p99"]
    head = ["team", "cells", "revision", "uncommitted", "frozen", *numbers, "sessions"]
    rows = [
        [
            team["team"],
            str(cells.get(team["team"], _NONE)),
            str(team["revision"]),
            str(team["uncommitted"]),
            "diverged" if team.get("diverged") else "frozen" if team.get("frozen") else _NONE,
            str(team["clients"]),
            str(team["lines_total"]),
            f"{team['work_seconds_total']:.2f}",
            seconds(team["line_seconds_p99"]),
            ", ".join(_session(session, now) for session in team["sessions"]) or _NONE,
        ]
        for team in status["teams"]
    ]
    return columns(head, rows, _TEAM_TEXTS)


def _cells_by_team(status: dict[str, Any]) -> dict[str, int]:
    """The numbers of cells that are known: those of programs that serve one team."""
    parts = [(program.get("teams", []), program.get("cells")) for program in status["programs"]]
    return {teams[0]: cells for teams, cells in parts if len(teams) == 1}


def _session(session: dict[str, Any], now: float) -> str:
    return f"{session['number']} {_user(session['uid'])} pid {session['pid']} {duration(now - session['since'])}"


def _program_table(status: dict[str, Any]) -> list[str]:
    work = {team["team"]: team["work_seconds_total"] for team in status["teams"]}
    rows = []
    for at, program in enumerate(status["programs"], 1):
        teams = program.get("teams", [*work])
        rows.append(
            [
                f"program {at}",
                _NONE if program["pid"] is None else str(program["pid"]),
                size(program["bytes"]),
                str(program["restores"]),
                f"{sum(work.get(team, 0) for team in teams):.2f}",
                seconds(program["batch_seconds_p99"]),
                str(program.get("cells", _NONE)),
                ", ".join(teams) if "teams" in program else "all",
            ]
        )
    rows.append(["hub", _NONE, size(status["hub_bytes"]), _NONE, _NONE, _NONE, _NONE, _NONE])
    head = ["process", "pid", "memory", "restarts", "work (s)", "batch p99", "cells", "teams"]
    return columns(head, rows, _PROGRAM_TEXTS)


def _user(uid: int) -> str:
    """A user's name, or the number of one that has none here."""
    try:
        return pwd.getpwuid(uid).pw_name
    except KeyError:
        return f"uid {uid}"


def duration(count: float) -> str:
    """Formats seconds in the largest units that say enough: `12 s`, `3 min`, `2 h 5 min`, `4 d 1 h`."""
    whole = max(0, int(count))
    if whole < _MINUTE:
        return f"{whole} s"
    if whole < _HOUR:
        return f"{whole // _MINUTE} min"
    if whole < _DAY:
        return f"{whole // _HOUR} h {whole % _HOUR // _MINUTE} min"
    return f"{whole // _DAY} d {whole % _DAY // _HOUR} h"


def seconds(count: float) -> str:
    """Formats a short time: `0.4 ms`, `2.98 s`."""
    return f"{count * 1000:.1f} ms" if count < 1 else f"{count:.2f} s"


def size(count: float) -> str:
    """Formats a number of bytes: `512 bytes`, `70.0 KB`, `12.4 MB`."""
    if count < 1000:
        return number(int(count), "byte")
    units = ["KB", "MB", "GB", "TB"]
    count /= 1000
    while count >= 1000 and len(units) > 1:
        count /= 1000
        units.pop(0)
    return f"{count:.1f} {units[0]}"
