"""Checkpoints of a hub: saved states in its journal, which make starts, restarts of the program and exports fast.

The journal continues in a new segment. Then a side program replays everything before it and saves the state, while the
first program serves. Until the state exists, a start replays from the state before it.
"""

from __future__ import annotations

import asyncio
import hashlib
import os
import re
from collections.abc import Callable, Iterable
from dataclasses import dataclass
from pathlib import Path

from ..base.clock import Clock
from ..base.faults import Fault
from .client_pool import ClientPool
from .exporter import SideProgram
from .journal_writer import JournalWriter
from .log_limit import RateLimitedLog
from .metrics import Metrics, TeamMetrics
from .replay_process import ReplayLost

# A note of a team: its name, revision, number of uncommitted changes, and open sessions.
_TEAM = re.compile(rb"team (\S+) (\d+) (\d+) (-|\d+(?:,\d+)*)")
# The part of the tail limits above which the last checkpoint is worth its time.
_AT_END = 0.1
# Seconds of a replay below which it says nothing of its speed; the least and the most replay seconds by served ones.
_SHORT, _LEAST, _MOST = 0.05, 1 / 64, 4


@dataclass
class TailLimits:
    """Limits for the changes after the last state: the seconds of a replay, and bytes.

    A replay may take as long as loading takes, if that is longer. Without a number of bytes they have no limit; 0 bytes
    means that a state is saved only when one is asked for. `keep` is the number of states kept, with the journal from
    the first of them, or with `keeps_segments` all of it; 0 keeps all.
    """

    bytes: int | None = None
    seconds: float = 2
    keep: int = 2
    keeps_segments: bool = False


class Checkpoints:
    """Makes one state at a time.

    The seconds of a replay are estimated from those that the program needed while it served, which include the waits
    for single lines. The last replay shows by which factor a replay is faster on this machine.
    """

    def __init__(
        self,
        side_program: SideProgram,
        writer: JournalWriter,
        limits: TailLimits,
        log_limited: RateLimitedLog,
        clock: Clock,
    ) -> None:
        """Makes the checkpoints of a writer's journal."""
        # The estimated seconds of a replay of the changes after the last state, the seconds of the last loading, and
        # the number of states made.
        self.seconds = self.loading = 0.0
        self.count = 0
        # Whether the operator wants a state now.
        self.is_requested = False
        # When the last try failed, in seconds since 1970, and why; None if it did not.
        self.failure: tuple[float, str] | None = None
        # Seconds of a replay by the program's seconds while it served.
        self._speed = 1.0
        self._side_program = side_program
        self._writer = writer
        self._journal = writer.journal
        self._limits = limits
        self._log_limited = log_limited
        self._clock = clock
        # The factor on the limits; it doubles with each failure.
        self._backoff = 1.0
        self._task: asyncio.Task[None] | None = None

    def is_due(self, fraction: float = 1) -> bool:
        """Whether the changes after the last state exceed this fraction of the limits."""
        limits, fraction = self._limits, fraction * self._backoff
        if limits.bytes == 0 or not self._journal.tail_changes:
            return False
        is_long = limits.bytes is not None and self._journal.tail_bytes > fraction * limits.bytes
        return is_long or self.seconds > fraction * max(limits.seconds, self.loading)

    def add(self, seconds: float) -> None:
        """Adds the program's seconds for changes that it served."""
        self.seconds += self._speed * seconds

    def _learn(self, estimated: float, loading: float, replaying: float) -> None:
        """Learns from a replay, with its estimated seconds, the seconds of loading and its own."""
        self.loading = loading
        if estimated > _SHORT:
            self._speed = min(_MOST, max(_LEAST, self._speed * replaying / estimated))

    def begin(self, pool: ClientPool, metrics: Metrics) -> None:
        """Starts a checkpoint if one is due and none is running."""
        is_wanted = self.is_due() or self.is_requested and self._journal.tail_changes
        if is_wanted and not (self._task and not self._task.done()):
            self._task = asyncio.create_task(self._roll_and_make(pool, metrics))

    async def make_last(self, pool: ClientPool, metrics: Metrics, is_wanted: bool) -> None:
        """Waits for a running checkpoint, then makes another if it is wanted or worth its time."""
        if self._task:
            await self._task
        if self._journal.tail_changes and (is_wanted or self.is_due(_AT_END)):
            await self._roll_and_make(pool, metrics)

    async def _roll_and_make(self, pool: ClientPool, metrics: Metrics) -> None:
        """Continues the journal in a new segment, and makes the state at its start."""
        try:
            await self._writer.roll(lambda: team_notes(pool, metrics))
        except (Fault, OSError) as fault:
            # (if the disk has failed, the next change ends the hub)
            return self._report_failure(fault)
        self.is_requested = False
        await self._make()

    async def _make(self) -> None:
        """Has the side program save the state at the start of the last segment."""
        seconds, begin = self.seconds, self._clock.now()
        path = self._journal.archive.temporary_state(self._journal.header.number)
        try:
            async with self._side_program.turn:
                times = await self._side_program.write(self._journal.begin, save=path)
                size, total = await asyncio.to_thread(_sync_and_hash, path)
                await self._writer.keep_state(path, size, total)
                await self._writer.run(self._prune)
            self.seconds, self._backoff, self.count = max(0.0, self.seconds - seconds), 1, self.count + 1
            self.failure = None
            self._learn(seconds, *times)
            what = f"saved a state of {self._journal.header.changes} changes"
            self._log_limited("state", f"{what}: {size} bytes in {self._clock.now() - begin:.1f} s")
        except (Fault, OSError, ReplayLost) as fault:
            for leftover in path.parent.glob(f"{path.name}*"):
                leftover.unlink()
            self._report_failure(fault)

    def _prune(self) -> None:
        try:
            self._journal.archive.prune(self._limits.keep, self._limits.keeps_segments)
        except OSError as error:
            self._log_limited("old", f"cannot remove old states: {error}")

    def _report_failure(self, fault: Exception) -> None:
        self._backoff *= 2
        self.failure = self._clock.date(), str(fault)
        self._log_limited("no state", f"cannot save a state: {fault}; the next try is after twice as many changes")


def _sync_and_hash(path: Path) -> tuple[int, str]:
    """Syncs a file to the disk; returns its length and its SHA-256."""
    with open(path, "rb") as file:
        os.fsync(file.fileno())
        total = hashlib.file_digest(file, "sha256").hexdigest()
        return file.tell(), total


def team_notes(pool: ClientPool, metrics: Metrics) -> list[bytes]:
    """Returns the notes for the journal: what the program's state lacks or gives only slowly."""
    sessions: dict[bytes, list[int]] = {}
    for team, number in sorted(pool.owners):
        sessions.setdefault(team, []).append(number)
    notes = []
    for team in sorted({*sessions, *metrics.teams}):
        counts, numbers = metrics.teams.get(team, TeamMetrics()), b",".join(
            b"%d" % number for number in sessions.get(team, [])
        )
        notes.append(b"team %b %d %d %b" % (team, counts.revision, counts.uncommitted, numbers or b"-"))
    return notes


def restore_notes(
    notes: Iterable[bytes], pool: ClientPool, metrics: Metrics, is_own: Callable[[bytes], bool]
) -> None:
    """Restores owners and metrics of some teams from such notes. The sessions have no client."""
    pool.owners = {session: owner for session, owner in pool.owners.items() if not is_own(session[0])}
    metrics.teams = {team: counts for team, counts in metrics.teams.items() if not is_own(team)}
    for note in notes:
        if (found := _TEAM.fullmatch(note)) and is_own(found[1]):
            counts = metrics.teams[found[1]] = TeamMetrics()
            counts.revision, counts.uncommitted = int(found[2]), int(found[3])
            for number in found[4].split(b",") if found[4] != b"-" else []:
                pool.own(found[1], int(number), None)
