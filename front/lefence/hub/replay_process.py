"""The program of a hub: one `lefence replay` on a pipe, and its restoration from a journal."""

from __future__ import annotations

import asyncio
import contextlib
import itertools
import resource
from collections.abc import Callable, Iterator
from pathlib import Path

from ..base.async_run import AnsweringRun
from ..base.clock import SYSTEM_CLOCK, Clock
from ..base.description import add_team
from ..base.faults import FAILED, REFUSED, Fault
from ..base.program import Program
from ..base.protocol import GROUND, text_length
from ..journal.frames import Record, sums_of
from ..journal.segments import State

# Lines per request while a journal is replayed.
_CHUNK = 1000

Note = Callable[[list[bytes], bytes], None]


class ReplayLost(Exception):
    """The program is gone. What it did with the lines in flight is unknown."""


class Divergence(Fault):
    """The program's reply to a change of a team is not the one in the journal."""

    def __init__(self, team: bytes, text: str) -> None:
        super().__init__(REFUSED, text)
        self.team = team


class ReplayProcess:
    """A running program over a design whose files have the given SHA-256 sums."""

    def __init__(
        self,
        program: Program,
        sums: list[str],
        export: str | None = None,
        save: Path | None = None,
        clock: Clock = SYSTEM_CLOCK,
        memory: int | None = None,
    ) -> None:
        """Makes it without starting it. At its end, the program writes the files `export` and `save`, if given. It may
        have so many bytes of memory; None is no limit.
        """
        self.program = program
        self.sums = sums
        self.memory = memory
        self._export, self._save = export, save
        self._clock = clock
        self._run: AnsweringRun | None = None
        # Since when the program has work; None if it has none.
        self._since: float | None = None

    @property
    def pid(self) -> int | None:
        """The process id of the program, or None."""
        return self._run.pid if self._run else None

    def seconds_silent(self) -> float:
        """How many seconds the program has been silent although it has work."""
        if self._since is None or self._run is None:
            return 0
        return self._clock.now() - max(self._since, self._run.replies.last_heard)

    def send_kill(self) -> None:
        """Kills a hung program without waiting; pending calls raise ReplayLost."""
        if self._run:
            self._run.send_kill()

    async def start(self, state: State | None = None) -> None:
        """Starts the program, and waits until it has loaded the design and the state.

        Raises a Fault if it refuses one of them or its arguments, or if the files have other sums; ReplayLost if it
        dies.
        """
        await self.kill()
        begin = state.path if state else None
        self._run = await self.program.replay_async(self._export, begin, self._save, self._clock)
        if self.memory is not None:
            # (a program that has ended already is noticed below)
            with contextlib.suppress(ProcessLookupError):
                resource.prlimit(self._run.pid, resource.RLIMIT_AS, (self.memory, self.memory))
        try:
            await self.execute([b""])
        except ReplayLost:
            status = await self._run.wait()
            if status in (1, 2):
                reason = "see its message above" if status == 1 else "it does not know the options of `replay`"
                raise Fault(
                    REFUSED if status == 1 else FAILED, f"{self.program.path} does not start: {reason}"
                ) from None
            raise
        if await asyncio.to_thread(sums_of, self.program.texts) != self.sums:
            raise Fault(REFUSED, "the files of the design have changed")
        if state and not await asyncio.to_thread(state.is_whole):
            raise Fault(REFUSED, f"{state.path} has changed")

    async def execute(self, lines: list[bytes]) -> list[bytes]:
        """Returns the whole reply to each line; only the last may be a `def`. Raises ReplayLost if the program dies."""
        if not lines:
            return []
        self._since = self._clock.now()
        try:
            assert self._run
            self._run.send(b"\n".join(lines) + b"\n")
            return await self._replies(lines)
        except (OSError, EOFError) as error:
            raise ReplayLost(f"the program is lost: {error}") from None
        finally:
            self._since = None

    async def _replies(self, lines: list[bytes]) -> list[bytes]:
        assert self._run
        *replies, rest = await self._run.replies.lines(len(lines))
        if length := text_length(lines[-1], replies[-1]):
            # (read into its place: a `def` may have tens of megabytes)
            begin = len(replies[-1]) + len(rest)
            reply = bytearray(len(replies[-1]) + length)
            reply[:begin] = replies[-1] + rest
            await self._run.replies.fill(memoryview(reply)[begin:])
            replies[-1] = reply
        return replies

    async def restore(
        self,
        records: Iterator[Record],
        on_record: Note | None = None,
        count: int = 0,
        is_own: Callable[[Record], bool] | None = None,
    ) -> int:
        """Replays records, compares each reply and calls `on_record` for each. Returns their number plus `count`.

        Records for which `is_own` is false are counted, but not replayed. Raises Divergence at the first reply that
        differs; ReplayLost if the program dies or is out of memory.
        """
        while chunk := list(itertools.islice(records, _CHUNK)):
            numbers = [at for at, record in enumerate(chunk) if is_own is None or is_own(record)]
            for at, reply in zip(numbers, await self.execute([chunk[at].line for at in numbers])):
                record = chunk[at]
                if reply.startswith(b"no 12 "):
                    raise ReplayLost("the program is out of memory and cannot restore its state")
                if reply != record.reply:
                    place = f"change {count + at + 1}: the journal has {record.reply!r} for {record.line!r}"
                    raise Divergence(record.line.split()[1], f"{place}, but the program replies {reply!r}")
                if on_record:
                    on_record(record.line.split(), reply)
            count += len(chunk)
        return count

    async def end(self) -> int:
        """Ends the program's input; returns its exit status."""
        assert self._run
        self._since = self._clock.now()
        try:
            return await self._run.finish()
        finally:
            self._since = None

    async def kill(self) -> None:
        """Kills the program if it runs."""
        if self._run is not None:
            await self._run.kill()
        self._run = None


async def described_teams(program: Program) -> list[str]:
    """Team names from the head of `lefence describe`, which is stopped before it prints the cells."""
    run = await program.describe_async()
    teams = [GROUND]
    try:
        # (a program that dies may leave a partial last line)
        while (line := await run.reader.readline()).endswith(b"\n"):
            if not add_team(line, teams):
                return teams
        raise await run.fault(f"{program.path} does not report the teams of the design")
    finally:
        await run.kill()
