"""The line `uncommitted TEAM` of the hub: the cells of a team whose committed place is not their working place.

The program has no command that shows committed places. So a side program saves a state, as for a checkpoint, and the
hub compares both places of each cell there. A team without changes since its last commit needs no state.
"""

from __future__ import annotations

import asyncio
import json
import tempfile
from collections.abc import Callable, Iterable
from pathlib import Path

from ..base.clock import Clock
from ..base.faults import Fault
from ..base.state_text import UNPLACED, teams_in
from .connection import DEFERRED, NOT_DONE, Deferred
from .exporter import SideProgram
from .journal_writer import JournalWriter
from .metrics import Metrics, TeamMetrics
from .replay_process import ReplayLost

# Called with the reply to a line that has waited.
Answer = Callable[[bytes], None]


class UncommittedPlaces:
    """Answers such lines. One state serves all that wait for it, and between two states is as long a pause."""

    def __init__(self, metrics: Metrics, side_program: SideProgram, writer: JournalWriter, clock: Clock) -> None:
        self._metrics = metrics
        self._side_program = side_program
        self._writer = writer
        self._clock = clock
        self._waiting: list[tuple[bytes, Answer]] = []
        self._task: asyncio.Task[None] | None = None

    def reply_to(self, team: bytes, answer: Answer) -> bytes | Deferred:
        """Returns the reply, `ok REV JSON`, or `Deferred` if `answer` will be called with it.

        JSON is an object: for each such cell its committed place `[X, Y, O]`, or null if it has none.
        """
        counts = self._metrics.teams.get(team, TeamMetrics())
        if not counts.uncommitted:
            return b"ok %d {}\n" % counts.revision
        self._waiting.append((team, answer))
        if self._task is None or self._task.done():
            self._task = asyncio.create_task(self._answer_all())
        return DEFERRED

    def end(self) -> None:
        """Refuses the lines that wait."""
        if self._task:
            self._task.cancel()
        waiting, self._waiting = self._waiting, []
        for _, answer in waiting:
            answer(NOT_DONE)

    async def _answer_all(self) -> None:
        while self._waiting:
            begin = self._clock.now()
            count = len(self._waiting)
            replies = await self._replies({team for team, _ in self._waiting[:count]})
            waiting, self._waiting = self._waiting[:count], self._waiting[count:]
            for team, answer in waiting:
                answer(replies.get(team, NOT_DONE))
            if self._waiting:
                await self._clock.sleep(self._clock.now() - begin)

    async def _replies(self, teams: set[bytes]) -> dict[bytes, bytes]:
        """Saves a state in a folder of its own; returns the reply for each of these teams, or none if that failed."""
        try:
            with tempfile.TemporaryDirectory(prefix="lefence-state-") as folder:
                path = Path(folder) / "state"
                async with self._side_program.turn:
                    await self._side_program.write(await self._writer.position(), save=path)
                return await asyncio.to_thread(_replies_in, path, teams)
        except (Fault, OSError, ReplayLost):
            return {}


def _replies_in(path: Path, teams: Iterable[bytes]) -> dict[bytes, bytes]:
    """Reads the replies for these teams from a state text."""
    replies = {}
    with open(path, "rb") as lines:
        for team, cells in teams_in(lines):
            found = {cell.name.decode(): _place(cell.committed) for cell in cells if cell.working != cell.committed}
            if team.name in teams:
                text = json.dumps(found, separators=(",", ":")).encode()
                replies[team.name] = b"ok %d %b\n" % (team.revision, text)
    return replies


def _place(word: bytes) -> list[int | str] | None:
    """The place of a state text, `X,Y,O` or `-`."""
    if word == UNPLACED:
        return None
    x, y, orient = word.split(b",")
    return [int(x), int(y), orient.decode()]
