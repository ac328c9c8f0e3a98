"""Shards: the teams of a hub are divided among programs, each over a slice of the design with its teams' cells.

A reply to a team depends only on the frame and on that team's cells and commands. So no client can distinguish one
program from several, and a command of a team delays the teams of its shard alone.
"""

from __future__ import annotations

import asyncio
import functools
import os
from collections import deque
from collections.abc import Callable, Coroutine, Iterable, Iterator
from typing import Any, NamedTuple

from ..base.clock import Clock
from ..base.faults import FAILED, REFUSED, Fault, reason_of
from ..base.protocol import is_change
from ..journal.frames import Record
from ..journal.segments import State
from .connection import NOT_DONE, Client, Entry
from .journal_writer import JournalWriter, complete
from .line_queue import LineQueue
from .replay_process import Note, ReplayLost, ReplayProcess
from .slice_store import Slice

# The most programs of a hub.
MOST_PROGRAMS = 8

# How often a program that dies while it is restored is started again, and at how many deaths a line alone is refused.
_STARTS, _DEATHS = 5, 2
# The bytes of a refused line that are logged.
_SHOWN = 200
# Batches for the statistics.
_BATCHES = 1024


class Follower(NamedTuple):
    """What is called while a program starts: with the notes of the state and a test for its teams, then with each
    change after the state.
    """

    on_notes: Callable[[list[bytes], Callable[[bytes], bool]], None]
    on_record: Note


class Shard:
    """Some teams, the program that serves them, and the lines that wait for it."""

    def __init__(
        self,
        replay: ReplayProcess,
        part: Slice | None,
        writer: JournalWriter,
        say: Callable[[str], None],
        clock: Clock,
        name: str = "",
    ) -> None:
        """Makes a shard of all teams or, given a slice and a name for messages, of the slice's teams."""
        self.replay = replay
        self.part = part
        self.queue = LineQueue()
        # There may be lines to answer.
        self.work = asyncio.Event()
        # The lines that are being answered, their clients, and the bytes reserved for their changes.
        self.batch: list[Entry] = []
        self.at_work: set[Client] = set()
        self.reserved = 0
        # Some open sessions of its teams may have no client.
        self.has_orphans = True
        # Restarts of the program; the seconds of the last batches, of loading, and of replaying.
        self.restores = 0
        self.seconds: deque[float] = deque(maxlen=_BATCHES)
        self.loading = self.replaying = 0.0
        self._writer = writer
        self._say = say
        self._clock = clock
        self._name = name

    def has_team(self, team: bytes) -> bool:
        """Whether it serves a team."""
        return self.part is None or team in self.part.teams

    def _has_record(self, record: Record) -> bool:
        return self.has_team(record.line.split(None, 2)[1])

    def is_busy(self) -> bool:
        """Whether it is answering lines, or may have some to answer."""
        return bool(self.batch) or self.work.is_set()

    def begin(self, batch: list[Entry], clients: set[Client]) -> None:
        """Begins to answer lines of these clients."""
        self.batch, self.at_work = batch, clients

    def end(self) -> None:
        """Ends to answer the lines."""
        self._writer.release(self.reserved)
        self.batch, self.at_work, self.reserved = [], set(), 0

    async def start(self, follower: Follower) -> None:
        """Starts the program from the journal, and informs a follower."""
        try:
            await self._restore(follower)
        except ReplayLost as lost:
            await self._restart(lost, follower)

    async def execute(self, lines: list[bytes]) -> tuple[list[bytes], float]:
        """Returns the program's replies and its seconds. A program that dies is restored and gets the lines again, one
        by one; none is in the journal yet.
        """
        begin = self._clock.now()
        try:
            replies = await self.replay.execute(lines)
        except ReplayLost as lost:
            await self._restart(lost)
            begin = self._clock.now()
            replies = await self._execute_apart(lines, 1 if len(lines) == 1 else 0)
        seconds = self._clock.now() - begin
        self.seconds.append(seconds)
        return replies, seconds

    async def _execute_apart(self, lines: list[bytes], deaths: int) -> list[bytes]:
        """Executes lines one by one. A line at which the program dies twice is refused: it must not end the service of
        others. The first line has killed it `deaths` times.
        """
        replies: list[bytes] = []
        executed: list[Record] = []
        for line in lines:
            reply = None
            while reply is None:
                try:
                    [reply] = await self.replay.execute([line])
                except ReplayLost as lost:
                    deaths += 1
                    await self._restart(lost, executed=executed)
                    if deaths >= _DEATHS:
                        text = line[:_SHOWN].decode("ascii", "backslashreplace")
                        self._say(f"refused, since the program died {deaths} times at this line alone: {text}")
                        reply = NOT_DONE
            replies.append(reply)
            if is_change(line.split(), reply):
                executed.append(Record(line, reply))
            deaths = 0
        return replies

    async def _restart(
        self, lost: ReplayLost, follower: Follower | None = None, executed: Iterable[Record] = ()
    ) -> None:
        """Starts the program again from the journal, then from the executed changes that are not in the journal yet;
        several times if it keeps dying.
        """
        for _ in range(_STARTS):
            self._say(f"{lost}{self._name}; restarting it and restoring {self._writer.changes} changes")
            self.restores += 1
            try:
                await self._restore(follower)
                await self.replay.restore(iter(executed), None, self._writer.changes)
                return
            except ReplayLost as again:
                lost = again
        raise Fault(FAILED, f"{lost}; giving up after {_STARTS} starts, no acknowledged change is lost")

    async def _restore(self, follower: Follower | None = None) -> None:
        """Starts the program from the journal's last state and replays the changes of its teams after it."""
        begin = self._clock.now()
        async with self._writer.tail() as tail:
            await self._load(tail.state)
            self.loading = self._clock.now() - begin
            if follower:
                follower.on_notes(tail.notes, self.has_team)
            is_own = self._has_record if self.part else None
            await self.replay.restore(tail.records, follower and follower.on_record, tail.changes, is_own)
        self.replaying = self._clock.now() - begin - self.loading

    async def _load(self, state: State | None) -> None:
        """Starts the program from a state. The program of a slice gets a part of it."""
        if self.part:
            await asyncio.to_thread(self.part.refuse_change)
        if self.part is None or state is None:
            return await self.replay.start(state)
        try:
            file, part = await complete(asyncio.to_thread(self.part.part_of_state, state))
        except OSError as error:
            raise Fault(FAILED, f"cannot keep the state of a program: {reason_of(error)}") from None
        with file:
            if not await asyncio.to_thread(state.is_whole):
                raise Fault(REFUSED, f"{state.path} has changed")
            await self.replay.start(part)


class ShardPool:
    """The shards of a hub. Each team is in one."""

    def __init__(
        self, replay: ReplayProcess, writer: JournalWriter, say: Callable[[str], None], clock: Clock
    ) -> None:
        """Makes one shard of all teams, with a program over the whole design."""
        self.shards = [Shard(replay, None, writer, say, clock)]
        self._replay = replay
        self._writer = writer
        self._say = say
        self._clock = clock
        self._by_team: dict[bytes, Shard] = {}

    def __iter__(self) -> Iterator[Shard]:
        return iter(self.shards)

    def divide(self, slices: list[Slice]) -> None:
        """Divides the teams among programs over these slices, before any is started."""
        shards = []
        for number, part in enumerate(slices, start=1):
            program = self._replay.program.with_design(part.path)
            sums, memory = [part.sum, *self._replay.sums[1:]], self._replay.memory
            replay = ReplayProcess(program, sums, clock=self._clock, memory=memory)
            name = f" (program {number} of {len(slices)})"
            shard = Shard(replay, part, self._writer, self._say, self._clock, name)
            shard.queue = LineQueue(functools.partial(self._may_take, shard))
            shards.append(shard)
        self.shards = shards or self.shards
        self._by_team = {team: shard for shard, part in zip(shards, slices) for team in part.teams}

    def of(self, client: Client) -> Shard:
        """The shard that answers the next line of a client. The operator's lines that name no team are answered by the
        first. Raises a Fault if no shard has the client's team.
        """
        if client.team is None or not self._by_team:
            return self._by_team.get(client.next_team(), self.shards[0])
        if client.team not in self._by_team:
            raise Fault(FAILED, f"no program serves team {client.team.decode()}")
        return self._by_team[client.team]

    def _may_take(self, shard: Shard, client: Client) -> bool:
        """Whether a shard may take a client's next line. The operator's lines may be for several shards: those for one
        wait until another has answered those in front of them.
        """
        if not client.is_ready() or client.team is not None:
            return client.is_ready()
        return self.of(client) is shard and not any(client in each.at_work for each in self.shards if each is not shard)

    def has_at_work(self, client: Client) -> bool:
        """Whether lines of a client are being answered."""
        return any(client in shard.at_work for shard in self.shards)

    def wake(self) -> None:
        """Lets all shards look for lines to answer."""
        for shard in self.shards:
            shard.work.set()

    def check_orphans(self) -> None:
        """Lets all shards look for sessions whose clients are gone."""
        for shard in self.shards:
            shard.has_orphans = True
        self.wake()

    def remove(self, client: Client) -> None:
        """Drops the waiting lines of a client that is gone."""
        for shard in self.shards:
            shard.queue.remove(client)

    def is_busy(self) -> bool:
        """Whether a shard is answering lines, or may have some to answer."""
        return any(shard.is_busy() for shard in self.shards)

    @property
    def restores(self) -> int:
        """Restarts of programs."""
        return sum(shard.restores for shard in self.shards)

    async def start(self, follower: Follower) -> None:
        """Starts all programs side by side."""
        await run_all(shard.start(follower) for shard in self.shards)

    async def kill(self) -> None:
        """Kills the programs that run."""
        for shard in self.shards:
            await shard.replay.kill()


async def run_all(works: Iterable[Coroutine[Any, Any, None]]) -> None:
    """Runs works side by side. If one fails, the others are cancelled, and its exception is raised."""
    tasks = [asyncio.ensure_future(work) for work in works]
    try:
        await asyncio.gather(*tasks)
    finally:
        for task in tasks:
            task.cancel()
        await asyncio.gather(*tasks, return_exceptions=True)


def default_programs() -> int:
    """The most programs of a hub without `--programs`: one for each processor that it may use."""
    return min(MOST_PROGRAMS, len(os.sched_getaffinity(0)))
