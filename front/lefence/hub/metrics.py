"""What a hub counts while it serves, and its status as metrics in Prometheus's text format."""

from __future__ import annotations

from collections import deque
from collections.abc import Iterable, Iterator
from pathlib import Path
from typing import Any

from ..base.clock import Clock
from ..base.protocol import REVISIONS, is_accepted

# Number of batches for the statistics.
_BATCHES = 4096
_KIB = 1024
# Commands after which a team's working places equal its committed ones.
_EVEN = (b"commit", b"revert")


class TeamMetrics:
    """A team's revision, and its changes since the last commit or revert."""

    def __init__(self) -> None:
        self.revision = self.uncommitted = 0


class Metrics:
    """Counters of one hub."""

    def __init__(self, clock: Clock) -> None:
        self.started = clock.now()
        self.teams: dict[bytes, TeamMetrics] = {}
        self.lines = 0
        # Seconds of the last syncs, and lines of the last batches.
        self.syncs: deque[float] = deque(maxlen=_BATCHES)
        self.batches: deque[int] = deque(maxlen=_BATCHES)

    def note(self, fields: list[bytes], reply: bytes) -> None:
        """Counts an answered line."""
        if fields and fields[0] in REVISIONS and is_accepted(reply):
            team = self.teams.setdefault(fields[1], TeamMetrics())
            team.revision = int(reply.split()[1])
            team.uncommitted = 0 if fields[0] in _EVEN else team.uncommitted + 1

    def divergences(self, answered: Iterable[tuple[list[bytes], bytes]]) -> dict[bytes, str]:
        """Finds the teams whose replies, in their order, do not fit their revisions in the journal; describes the first
        such reply of each. An accepted change must have the next revision, and `open` the present one.
        """
        revisions: dict[bytes, int] = {}
        found: dict[bytes, str] = {}
        for fields, reply in answered:
            if not is_accepted(reply) or not fields or fields[0] not in (*REVISIONS, b"open"):
                continue
            verb, team = fields[:2]
            is_change = verb in REVISIONS
            revision = revisions.get(team, self.teams.get(team, TeamMetrics()).revision) + is_change
            if reply.split()[1 if is_change else 2] != b"%d" % revision:
                text = f"revision {revision} is due, but the program replies {reply!r} to `{verb.decode()}`"
                found.setdefault(team, text)
            revisions[team] = revision
        return found

    def count(self, lines: int) -> None:
        """Counts a batch."""
        self.lines += lines
        self.batches.append(lines)


def percentile(values: Iterable[float], part: float) -> float:
    """The value that this part of the values does not exceed; 0 for no values."""
    found = sorted(values)
    return found[min(len(found) - 1, int(len(found) * part))] if found else 0


def memory_of(pid: int | None) -> int:
    """The bytes of memory of a process; 0 if there is none."""
    try:
        lines = Path(f"/proc/{pid}/status").read_text().splitlines()
        return next(int(line.split()[1]) * _KIB for line in lines if line.startswith("VmRSS:"))
    except (OSError, StopIteration, ValueError):
        return 0


_METRICS = {
    "uptime_seconds": ("gauge", "Seconds since this start."),
    "clients": ("gauge", "Connections."),
    "unread_bytes": ("gauge", "Bytes of replies that clients have not read."),
    "lines_total": ("counter", "Lines answered since this start."),
    "diverged_teams": ("gauge", "Teams that are frozen since a reply of the program does not fit the journal."),
    "restores_total": ("counter", "Restarts of the program since this start."),
    "changes_total": ("counter", "Changes in the journal."),
    "states_total": ("counter", "States saved since this start."),
    "journal_bytes": ("gauge", "Bytes of the journal's last segment."),
    "past_bytes": ("gauge", "Bytes of the earlier segments and of the states."),
    "journal_age_seconds": ("gauge", "Seconds since the last change."),
    "sync_seconds_p50": ("gauge", "Median seconds of the last syncs of the journal."),
    "sync_seconds_p99": ("gauge", "The same, 99 of 100."),
    "batch_lines_p50": ("gauge", "Median lines of the last batches."),
    "batch_lines_p99": ("gauge", "The same, 99 of 100."),
    "program_bytes": ("gauge", "Memory of the program."),
    "hub_bytes": ("gauge", "Memory of the hub."),
    "slow_lines_total": ("counter", "Slow lines since this start."),
}
_TEAM_METRICS = {
    "clients": ("gauge", "Connections of the team's sockets."),
    "sessions": ("gauge", "Open sessions of the team."),
    "revision": ("counter", "The team's revision."),
    "uncommitted": ("gauge", "Changes of the team since its last commit or revert."),
    "frozen": ("gauge", "Whether the operator has frozen the team: 1 or 0."),
    "diverged": ("gauge", "Whether the hub has frozen the team, since a reply does not fit the journal: 1 or 0."),
    "lines_total": ("counter", "Lines of the team answered since this start."),
    "work_seconds_total": ("counter", "Seconds of the program's work for the team since this start."),
    "line_seconds_p50": ("gauge", "Median seconds from a line's arrival to its reply, of the team's last lines."),
    "line_seconds_p99": ("gauge", "The same, 99 of 100."),
}


def prometheus(status: dict[str, Any]) -> str:
    """Formats a status for Prometheus."""
    lines: list[str] = []
    for name, (kind, help_text) in _METRICS.items():
        lines += [*_head(f"lefence_{name}", kind, help_text), f"lefence_{name} {status[name]}"]
    for name, (kind, help_text) in _TEAM_METRICS.items():
        lines += _head(f"lefence_team_{name}", kind, help_text)
        lines += (f'lefence_team_{name}{{team="{team}"}} {value}' for team, value in _of_teams(status, name))
    return "".join(f"{line}\n" for line in lines)


def _head(name: str, kind: str, help_text: str) -> list[str]:
    return [f"# HELP {name} {help_text}", f"# TYPE {name} {kind}"]


def _of_teams(status: dict[str, Any], name: str) -> Iterator[tuple[str, float]]:
    for team in status["teams"]:
        value = team[name]
        quoted = team["team"].replace("\\", "\\\\").replace('"', '\\"')
        # (a bool becomes 0 or 1)
        yield quoted, len(value) if isinstance(value, list) else +value
