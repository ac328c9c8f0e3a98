"""What the clients of a hub feel: how long their lines take, the program's seconds by team, and slow lines."""

from __future__ import annotations

from collections import deque
from collections.abc import Callable, Iterable
from typing import Any, NamedTuple

from ..base.clock import Clock
from ..base.protocol import UNBOUNDED
from .connection import Client, Entry
from .metrics import percentile

# Lines of a team for the statistics, and slow lines that are kept.
_LINES, _SLOW_LINES = 1024, 20
# A line of a whole team counts as this many lines of one cell if a batch's seconds are divided among its lines.
_WHOLE = 64
_WHOLE_TEAM = UNBOUNDED | {b"tidy", b"commit", b"revert", b"undo"}


class TeamLatency:
    """The lines of a team: their number, the seconds of the last ones, and all seconds of the program's work."""

    def __init__(self) -> None:
        self.lines = 0
        self.work = 0.0
        self.seconds: deque[float] = deque(maxlen=_LINES)


class SlowLine(NamedTuple):
    """A slow line: when it was answered, in seconds since 1970, its team, verb and client, and its seconds from its
    arrival to its reply and of the program's work.
    """

    at: float
    team: str
    verb: str
    uid: int
    pid: int
    seconds: float
    work: float


class Latency:
    """Measures the lines of a hub's clients. The hub calls `serve` once and `note` for each batch."""

    def __init__(self, slow: float, log_limited: Callable[[str, str], None], clock: Clock) -> None:
        """Logs lines that take more than `slow` seconds, if `slow` is not 0."""
        self.slow_lines: deque[SlowLine] = deque(maxlen=_SLOW_LINES)
        self.slow_count = 0
        self._slow = slow
        self._log_limited = log_limited
        self._clock = clock
        self._teams: dict[bytes, TeamLatency] = {}

    def serve(self, teams: Iterable[str]) -> None:
        """Begins with these teams."""
        self._teams = {team.encode(): TeamLatency() for team in teams}

    def note(self, batch: list[Entry], work: float) -> None:
        """Counts the lines of a batch, whose replies are sent now, and for which the program worked some seconds."""
        now = self._clock.now()
        weights = [_WHOLE if entry.verb in _WHOLE_TEAM else 1 for entry in batch]
        for entry, weight in zip(batch, weights):
            if client := entry.client:
                team = client.team or b" ".join(entry.fields[1:2])
                if found := self._teams.get(team):
                    share = work * weight / sum(weights)
                    found.lines += 1
                    found.work += share
                    found.seconds.append(now - entry.since)
                    if 0 < self._slow < now - entry.since:
                        self._note_slow(entry, client, team.decode(), (now - entry.since, share))

    def _note_slow(self, entry: Entry, client: Client, team: str, seconds: tuple[float, float]) -> None:
        rounded = [round(each, 3) for each in seconds]
        line = SlowLine(round(self._clock.date(), 1), team, entry.verb.decode(), client.uid, client.pid, *rounded)
        self.slow_lines.append(line)
        self.slow_count += 1
        text = f"{line.seconds} s, {line.work} s of them in the program"
        self._log_limited(f"slow {team}", f"{client.name}: a slow `{line.verb}` of team {team}: {text}")

    def status_of(self, team: bytes) -> dict[str, Any]:
        """The numbers of a team for the status."""
        found = self._teams.get(team, TeamLatency())
        parts = {f"line_seconds_p{part}": round(percentile(found.seconds, part / 100), 6) for part in (50, 99)}
        return {"lines_total": found.lines, "work_seconds_total": round(found.work, 6), **parts}

    def slow_status(self) -> list[dict[str, Any]]:
        """The last slow lines for the status."""
        return [line._asdict() for line in self.slow_lines]
